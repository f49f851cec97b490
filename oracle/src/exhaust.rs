//! Short inputs, all of them: packets, opcodes and bench lines; and all pairs of limits of LE Create Connection.
use crate::compare::Case;
use crate::generate::create_connection::{alone_and_in_pairs, RIGHT};
use crate::generate::{command_packet, plain_setup};
use crate::trial::{kind, put_record, Trial, ROOM};

/// Calls of one run, each followed by the state.
const AT_ONCE: usize = 128;
/// Octets that a packet may begin with or be counted by.
const ALPHABET: [u8; 13] = [0, 1, 2, 3, 4, 5, 6, 8, 0x0C, 0x10, 0x20, 0x80, 0xFF];
const CHARACTERS: [u8; 14] = *b"PTCOX\t\n 019afA";

/// All of them, one run after the other.
pub fn cases() -> impl Iterator<Item = Case> {
    let from_start = short_packets().chain(opcodes()).chain(create_connections());
    from_start
        .map(|packets| Case::Trial(packets_trial(&packets, false)))
        .chain(short_packets().map(|packets| Case::Trial(packets_trial(&packets, true))))
        .chain(words(&CHARACTERS, 4).map(|input| Case::Lines(input, 4_096)))
        .chain(words(&CHARACTERS, 3).map(|end| Case::Lines([b"P\t".to_vec(), end].concat(), 4_096)))
        .chain(words(&CHARACTERS, 3).map(|end| Case::Lines([b"T\t1".to_vec(), end].concat(), 4_096)))
}

fn plain_trial(input: Vec<u8>) -> Trial {
    Trial { setup: plain_setup(), pool: 64, events: 71, packets: 64, room: ROOM + AT_ONCE * 2_048, input }
}

/// The packets handed in one after the other, each from the state that the last left; at the start, or with links and data.
fn packets_trial(packets: &[Vec<u8>], with_links: bool) -> Trial {
    let mut input = Vec::new();
    if with_links {
        put_record(&mut input, kind::OPEN, &[1, 0, 24, 0, 0, 0, 42, 0]);
        put_record(&mut input, kind::OPEN, &[0, 0, 24, 0, 0, 0, 42, 0]);
        put_record(&mut input, kind::PACKET, &[2, 1, 0, 1, 0, 0xAA]);
    }
    for packet in packets {
        put_record(&mut input, kind::PACKET, packet);
        put_record(&mut input, kind::STATE, &[]);
    }
    plain_trial(input)
}

/// Packets of 0 to 2 octets, all; of 3 and 4 with these octets alone.
fn short_packets() -> impl Iterator<Item = Vec<Vec<u8>>> {
    let all: Vec<u8> = (0..=255).collect();
    let short = words(&all, 2);
    let longer = words(&ALPHABET, 4).filter(|packet| packet.len() > 2);
    groups(short.chain(longer))
}

/// All 65,536 opcodes, without parameters.
fn opcodes() -> impl Iterator<Item = Vec<Vec<u8>>> {
    groups((0..=65_535u16).map(|opcode| {
        let [low, high] = opcode.to_le_bytes();
        vec![1, low, high, 0]
    }))
}

/// LE Create Connection with each field at its limits, alone and in pairs; the same while initiating, which the right one sees
/// to; then it is cancelled.
fn create_connections() -> impl Iterator<Item = Vec<Vec<u8>>> {
    groups(alone_and_in_pairs().into_iter().flat_map(|parameters| {
        let create = command_packet(0x200D, &parameters);
        [create.clone(), command_packet(0x200D, &RIGHT), create, command_packet(0x200E, &[])]
    }))
}

/// Every word of up to so many letters, the empty one first.
pub fn words(letters: &[u8], longest: u32) -> impl Iterator<Item = Vec<u8>> {
    let letters = letters.to_vec();
    (0..=longest).flat_map(move |length| {
        let letters = letters.clone();
        (0..letters.len().pow(length)).map(move |number| word(&letters, length, number))
    })
}

/// The word with this number among those of its length.
fn word(letters: &[u8], length: u32, mut number: usize) -> Vec<u8> {
    let mut word = Vec::new();
    for _ in 0..length {
        word.push(letters[number % letters.len()]);
        number /= letters.len();
    }
    word
}

fn groups(packets: impl Iterator<Item = Vec<u8>>) -> impl Iterator<Item = Vec<Vec<u8>>> {
    let mut packets = packets.peekable();
    std::iter::from_fn(move || {
        packets.peek()?;
        Some(packets.by_ref().take(AT_ONCE).collect())
    })
}
