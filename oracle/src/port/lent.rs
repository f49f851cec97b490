//! Buffers that are lent to the port: a known filling in them, and guard octets on both sides that have to keep theirs.

const GUARD: usize = 64;
/// A buffer is looked at this far behind what was written; nearly all are shorter.
const LOOKED_AT: usize = 65_536;

#[derive(Default)]
pub struct Lent {
    /// Guard, buffer, guard.
    octets: Vec<u8>,
    length: usize,
    filling: u8,
}

impl Lent {
    /// So many octets, filled; with another filling each time, so that an octet that is written by chance as it was shows the
    /// next time.
    pub fn fill(&mut self, length: usize) {
        self.filling = self.filling.wrapping_mul(5).wrapping_add(0xA3);
        self.length = length;
        self.octets.clear();
        self.octets.resize(GUARD + length + GUARD, self.filling);
    }

    pub fn octets(&self) -> &[u8] {
        &self.octets[GUARD..GUARD + self.length]
    }

    pub fn octets_mut(&mut self) -> &mut [u8] {
        &mut self.octets[GUARD..GUARD + self.length]
    }

    pub fn check_guards(&self) -> Result<(), String> {
        let behind = &self.octets[GUARD + self.length..];
        if self.is_filling(&self.octets[..GUARD]) && self.is_filling(behind) {
            Ok(())
        } else {
            Err("octets beside a lent buffer changed".to_string())
        }
    }

    /// So many octets are said to be written to the front: later ones and the guards have to keep their values.
    pub fn check_written(&self, written: usize) -> Result<(), String> {
        if written > self.length {
            return Err(format!("{written} octets said to be written into {}", self.length));
        }
        let end = self.length.min(written + LOOKED_AT);
        if !self.is_filling(&self.octets()[written..end]) {
            return Err(format!("octets behind the {written} that are said to be written changed"));
        }
        self.check_guards()
    }

    /// Slice against slice is many times faster than octet by octet.
    fn is_filling(&self, octets: &[u8]) -> bool {
        let filled = [self.filling; 256];
        octets.chunks(filled.len()).all(|part| part == &filled[..part.len()])
    }
}
