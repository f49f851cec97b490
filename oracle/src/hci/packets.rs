//! Packets for those that read them: of every kind, around the lengths that their headers say.
use crate::random::Random;

/// Octets of short packets.
pub const OCTETS: [u8; 8] = [0, 1, 2, 3, 4, 5, 6, 255];

pub fn draw(random: &mut Random) -> Vec<u8> {
    let any = random.octet();
    let indicator = random.pick(&[1, 1, 1, 2, 2, 2, 3, 4, 5, 5, 0, 6, any]);
    let few = random.below(40);
    let many = random.below(2_000);
    let there = random.pick(&[0, 1, few, few, few, 254, 255, 256, 257]);
    let there = if random.once_in(400) { many } else { there };
    let mut packet = packet(random, indicator, there);
    if random.once_in(8) {
        packet.truncate(random.below(packet.len() + 1));
    }
    packet
}

/// A packet with so many octets behind its header, and as many said, or nearly.
pub fn packet(random: &mut Random, indicator: u8, there: usize) -> Vec<u8> {
    let there_said = there as u16;
    let any = random.word();
    let said = random.pick(&[there_said, there_said, there_said, there_said.wrapping_add(1), there_said.saturating_sub(1), any]);
    let mut packet = header(random, indicator, said);
    packet.extend((0..there).map(|_| random.octet()));
    packet
}

/// A whole packet.
pub fn whole(random: &mut Random, indicator: u8, length: u8) -> Vec<u8> {
    let mut packet = header(random, indicator, u16::from(length));
    packet.extend((0..length).map(|_| random.octet()));
    packet
}

/// The two highest bits of the length of isochronous data are no part of it.
fn header(random: &mut Random, indicator: u8, said: u16) -> Vec<u8> {
    let [low, high] = said.to_le_bytes();
    let (a, b) = (random.octet(), random.octet());
    match indicator {
        1 | 3 => vec![indicator, a, b, low],
        4 => vec![indicator, a, low],
        5 => vec![indicator, a, b, low, high | random.pick(&[0, 0, 0x40, 0x80, 0xC0])],
        _ => vec![indicator, a, b, low, high],
    }
}
