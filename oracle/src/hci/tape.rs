//! Octets that arguments are read from, one after the other; 0 behind the last.
use crate::random::Random;

pub struct Tape<'a>(pub &'a [u8]);

impl<'a> Tape<'a> {
    /// The next octets, at most so many.
    pub fn part(&mut self, most: usize) -> &'a [u8] {
        let (part, rest) = self.0.split_at(most.min(self.0.len()));
        self.0 = rest;
        part
    }

    /// A number of so many octets, low octet first.
    pub fn number(&mut self, octets: usize) -> u64 {
        self.part(octets).iter().rev().fold(0, |number, octet| number << 8 | u64::from(*octet))
    }

    pub fn octet(&mut self) -> u8 {
        self.number(1) as u8
    }

    pub fn word(&mut self) -> u16 {
        self.number(2) as u16
    }

    /// A length of three octets.
    pub fn length(&mut self) -> usize {
        self.number(3) as usize
    }

    /// So many octets, which an octet decides.
    pub fn octets(&mut self, length: usize) -> Vec<u8> {
        let mut octets = vec![0; length];
        Random::of_run(self.octet().into(), 0).fill(&mut octets);
        octets
    }
}

/// A length as a tape has it.
pub fn put_length(tape: &mut Vec<u8>, length: usize) {
    tape.extend_from_slice(&(length as u32).to_le_bytes()[..3]);
}
