//! The writers. Where the source cuts a length silently the port answers 8, and where the buffer is too small 9: then nothing is
//! written. Else both write the same octets.
use super::tape::{put_length, Tape};
use super::{same, Compared};
use crate::ble::hci;
use crate::octets::hex;
use crate::port::calls;
use crate::port::lent::Lent;
use crate::port::plant::{self, Plant};
use crate::port::raw::Wrote;
use crate::random::Random;

/// So many octets of arguments, then the length of what is written behind them, the octet that decides it, and the octets of the
/// buffer by how many they are more or less than the packet's.
pub fn draw(random: &mut Random, arguments: usize, most: usize) -> Vec<u8> {
    let few = random.below(48);
    let near = (most + random.below(5)).saturating_sub(2);
    let long = most <= 255 || random.once_in(500);
    let length = if long { random.pick(&[few, near, most, most + 1]) } else { random.pick(&[few, few, 0, 256]) };
    let mut tape: Vec<u8> = (0..arguments).map(|_| random.octet()).collect();
    put_length(&mut tape, length);
    tape.push(random.octet());
    put_room(random, &mut tape);
    tape
}

/// Mostly enough.
fn put_room(random: &mut Random, tape: &mut Vec<u8>) {
    let far = random.below(600);
    let more = random.pick(&[0, 0, 1, 2, far]);
    let less = random.pick(&[0, 0, 0, 0, 0, 1, 1, 2, far]);
    put_length(tape, more);
    put_length(tape, less);
}

/// A buffer for a packet of this length, as the tape says.
fn room(tape: &mut Tape, length: usize) -> usize {
    (length + tape.length()).saturating_sub(tape.length())
}

/// What question 8 asks about: how long it is, and how long it may be.
struct Asked {
    length: usize,
    most: usize,
}

/// The source's packet, and the port's write into a buffer of so many octets.
fn compare(
    plant: Option<Plant>,
    Asked { length, most }: Asked,
    packet: &[u8],
    room: usize,
    write: impl FnOnce(&mut [u8]) -> Wrote,
) -> Compared {
    let mut out = Lent::default();
    out.fill(room);
    let mut port = write(out.octets_mut());
    plant::wrote(plant, length, &mut port);
    let number = if length > most {
        8
    } else if packet.len() > room {
        9
    } else {
        0
    };
    let written = if number == 0 { packet.len() } else { 0 };
    same(Wrote { number, written }, port).map_err(|words| format!("{length} octets or pairs, room {room}: {words}"))?;
    out.check_written(written)?;
    if out.octets()[..written] != packet[..written] {
        return Err(format!("source {}, port {}", hex(packet), hex(&out.octets()[..written])));
    }
    Ok((1, u64::from(number != 0)))
}

pub fn event(plant: Option<Plant>, tape: &mut Tape) -> Compared {
    let (code, _) = (tape.octet(), tape.octet());
    let length = tape.length();
    let params = tape.octets(length);
    let packet = hci::event(code, &params);
    let room = room(tape, packet.len());
    compare(plant, Asked { length, most: 255 }, &packet, room, |out| calls::hci::event(code, &params, out))
}

pub fn acl(plant: Option<Plant>, tape: &mut Tape) -> Compared {
    let (handle, boundary) = (tape.word(), tape.octet());
    let length = tape.length();
    let load = tape.octets(length);
    let packet = hci::acl(handle, boundary, &load);
    let room = room(tape, packet.len());
    compare(plant, Asked { length, most: 65_535 }, &packet, room, |out| calls::hci::acl(handle, boundary, &load, out))
}

pub fn command_complete(plant: Option<Plant>, tape: &mut Tape) -> Compared {
    let (number, opcode) = (tape.octet(), tape.word());
    let length = tape.length();
    let params = tape.octets(length);
    let packet = hci::command_complete(number, opcode, &params);
    let room = room(tape, packet.len());
    let write = |out: &mut [u8]| calls::hci::command_complete(number, opcode, &params, out);
    compare(plant, Asked { length: length + 3, most: 255 }, &packet, room, write)
}

pub fn command_status(plant: Option<Plant>, tape: &mut Tape) -> Compared {
    let (number, status, opcode) = (tape.octet(), tape.octet(), tape.word());
    let packet = hci::command_status(number, status, opcode);
    tape.part(4);
    let room = room(tape, packet.len());
    let write = |out: &mut [u8]| calls::hci::command_status(number, status, opcode, out);
    compare(plant, Asked { length: 4, most: 255 }, &packet, room, write)
}

pub fn le_meta(plant: Option<Plant>, tape: &mut Tape) -> Compared {
    let subevent = tape.octet();
    let length = tape.length();
    let params = tape.octets(length);
    let packet = hci::le_meta(subevent, &params);
    let room = room(tape, packet.len());
    let write = |out: &mut [u8]| calls::hci::le_meta(subevent, &params, out);
    compare(plant, Asked { length: length + 1, most: 255 }, &packet, room, write)
}

/// How many handles and counts, the octet that decides them, and the buffer.
pub fn draw_pairs(random: &mut Random) -> Vec<u8> {
    let few = random.below(8);
    let handles = random.pick(&[0, 1, few, few, 62, 63, 64, 65, 128, 255, 256, 257]);
    let counts = random.pick(&[handles, handles, handles, handles + 1, handles.saturating_sub(1), few]);
    let mut tape = Vec::new();
    put_length(&mut tape, handles);
    put_length(&mut tape, counts);
    tape.push(random.octet());
    put_room(random, &mut tape);
    tape
}

/// Where one slice is longer, what it has more is no pair.
pub fn completed_packets(plant: Option<Plant>, tape: &mut Tape) -> Compared {
    let (handles, counts) = (tape.length(), tape.length());
    let mut random = Random::of_run(tape.octet().into(), 1);
    let handles: Vec<u16> = (0..handles).map(|_| random.word()).collect();
    let counts: Vec<u16> = (0..counts).map(|_| random.word()).collect();
    let pairs: Vec<(u16, u16)> = handles.iter().copied().zip(counts.iter().copied()).collect();
    let packet = hci::number_of_completed_packets(&pairs);
    let room = room(tape, packet.len());
    let write = |out: &mut [u8]| calls::hci::completed_packets(&handles, &counts, out);
    compare(plant, Asked { length: pairs.len(), most: 63 }, &packet, room, write)
}
