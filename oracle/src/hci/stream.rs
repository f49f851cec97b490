//! The stream: octets fed in pieces over a lent buffer. Where the port says that there is no room, the source is not fed.
use super::packets;
use super::tape::{put_length, Tape};
use super::{same, Compared};
use crate::ble::hci::{h4_packet_len, H4Stream};
use crate::port::calls;
use crate::port::lent::Lent;
use crate::port::plant::{self, Plant};
use crate::port::raw::{self, Stream, StreamFed};
use crate::random::Random;

/// The octets of the buffer, then pieces: how many octets, and those. Whole packets, mostly, cut anywhere.
pub fn draw(random: &mut Random) -> Vec<u8> {
    let mut octets = Vec::new();
    for _ in 0..1 + random.below(6) {
        let few = random.below(12) as u8;
        let length = random.pick(&[few, few, few, 0, 60, 255]);
        let indicator = random.pick(&[1, 2, 2, 3, 4, 5]);
        octets.extend(packets::whole(random, indicator, length));
    }
    if random.once_in(6) {
        let at = random.below(octets.len());
        octets[at] = random.octet();
    }
    let few = random.below(octets.len() + 1);
    let room = random.pick(&[octets.len(), octets.len() + 1, 2 * octets.len(), few, 1_024]);
    let mut tape = (room as u16).to_le_bytes().to_vec();
    let mut rest = &octets[..];
    while !rest.is_empty() {
        let few = 1 + random.below(8);
        let any = random.below(256);
        let (piece, behind) = rest.split_at(random.pick(&[few, few, any, 255]).min(rest.len()));
        tape.push(piece.len() as u8);
        tape.extend(piece);
        rest = behind;
    }
    tape
}

pub fn pieces(plant: Option<Plant>, tape: &mut Tape) -> Compared {
    let mut buffer = Lent::default();
    buffer.fill(tape.word().into());
    let mut stream = calls::hci::stream_start();
    same(Stream { ready: 0, held: 0 }, stream)?;
    let mut source = H4Stream::new();
    let mut held = Vec::new();
    let (mut feeds, mut without_room) = (0, 0);
    while !tape.0.is_empty() {
        let length = tape.octet();
        let piece = tape.part(length.into());
        let all = [&held[..], piece].concat();
        let fits = all.len() <= buffer.octets().len();
        let fed = if fits { Some(source.feed(piece)) } else { None };
        stream = feed(plant, stream, &mut buffer, piece, &all, fed)?;
        if fits {
            same(source.buffered(), stream.held)?;
            held = all[stream.ready..].to_vec();
        }
        feeds += 1;
        without_room += u64::from(!fits);
    }
    Ok((feeds, without_room))
}

type Fed = Option<Result<Vec<Vec<u8>>, u8>>;

/// One feed. `all` are the octets that wait and the piece behind them, `fed` is what the source gives, None where there is no
/// room.
fn feed(plant: Option<Plant>, stream: Stream, buffer: &mut Lent, piece: &[u8], all: &[u8], fed: Fed) -> Result<Stream, String> {
    let mut expected = buffer.octets().to_vec();
    if fed.is_some() {
        expected[..all.len()].copy_from_slice(all);
    }
    let mut port = calls::hci::stream_feed(stream, buffer.octets_mut(), piece);
    plant::fed(plant, &mut port);
    buffer.check_guards()?;
    let stream = match fed {
        None => StreamFed { stream, kind: raw::NO_ROOM, indicator: 0 },
        Some(Ok(ref packets)) => {
            let ready = packets.iter().map(Vec::len).sum();
            StreamFed { stream: Stream { ready, held: all.len() - ready }, kind: raw::PACKETS, indicator: 0 }
        }
        Some(Err(indicator)) => StreamFed { stream: Stream { ready: 0, held: all.len() }, kind: raw::UNDEFINED, indicator },
    };
    same(stream, port)?;
    if buffer.octets() != expected {
        return Err("the buffer holds other octets".to_string());
    }
    if let Some(Ok(packets)) = fed {
        same(packets, handed_out(port.stream, buffer.octets()))?;
    }
    Ok(port.stream)
}

/// The packets of the last feed.
fn handed_out(stream: Stream, buffer: &[u8]) -> Vec<Vec<u8>> {
    let mut list = Vec::new();
    let mut at = 0;
    loop {
        match calls::hci::stream_packet(stream, buffer, at) {
            0 => return list,
            length => list.push(buffer[at..at + length].to_vec()),
        }
        at += list[list.len() - 1].len();
    }
}

/// A stream that no feed gave: octets of the buffer, ready, held, and those fed; the octet that decides the buffer's octets,
/// and an index.
pub fn draw_any(random: &mut Random) -> Vec<u8> {
    let room = random.below(40);
    let mut tape = Vec::new();
    put_length(&mut tape, room);
    for _ in 0..3 {
        let few = random.below(room + 2);
        let length = random.pick(&[few, few, few / 2, few / 4, 0, 0xFF_FFFF]);
        put_length(&mut tape, length);
    }
    tape.push(random.octet());
    put_length(&mut tape, random.below(room + 2));
    tape
}

pub fn any(plant: Option<Plant>, tape: &mut Tape) -> Compared {
    // the largest length stands for the largest number
    let number = |length: usize| if length == 0xFF_FFFF { usize::MAX } else { length };
    let room = tape.length();
    let (ready, held) = (number(tape.length()), number(tape.length()));
    let fed = tape.length().min(64);
    let mut random = Random::of_run(tape.octet().into(), 2);
    let mut buffer = Lent::default();
    buffer.fill(room.min(4_096));
    buffer.octets_mut().fill_with(|| random.pick(&packets::OCTETS[1..6]));
    let piece: Vec<u8> = (0..fed).map(|_| random.pick(&packets::OCTETS)).collect();
    let stream = Stream { ready, held };
    let at = number(tape.length());
    same(packet_at(stream, buffer.octets(), at), calls::hci::stream_packet(stream, buffer.octets(), at))?;
    let waits = ready.checked_add(held).and_then(|end| buffer.octets().get(ready..end));
    let all = [waits.unwrap_or_default(), &piece[..]].concat();
    let fits = waits.is_some() && all.len() <= buffer.octets().len();
    let given = if fits { Some(H4Stream::new().feed(&all)) } else { None };
    feed(plant, stream, &mut buffer, &piece, &all, given)?;
    Ok((2, u64::from(!fits)))
}

/// The octets of the whole packet at an index of those that are ready.
fn packet_at(stream: Stream, buffer: &[u8], at: usize) -> usize {
    let rest = buffer[..stream.ready.min(buffer.len())].get(at..).unwrap_or_default();
    match h4_packet_len(rest) {
        Ok(Some(length)) if length <= rest.len() => length,
        _ => 0,
    }
}
