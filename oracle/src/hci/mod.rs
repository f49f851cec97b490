//! The functions of hci.rs, `row_bitmap` and AES, one call after the other. Each reads its arguments from octets, so that any
//! octets are an input, and a difference can be shrunk as a run is. A comparison gives how many calls were made and how many of
//! them refused, or what differs in words.
mod bits;
mod cipher;
mod packets;
mod read;
mod rows;
mod stream;
mod tape;
mod write;

use crate::exhaust::words;
use crate::octets::hex;
use crate::port::plant::Plant;
use crate::random::Random;
use tape::Tape;

/// Calls made, and refused ones.
type Compared = Result<(u64, u64), String>;

pub struct Function {
    pub name: &'static str,
    /// Octets to read arguments from, at random and around the limits.
    draw: fn(&mut Random) -> Vec<u8>,
    compare: fn(Option<Plant>, &mut Tape) -> Compared,
}

pub const FUNCTIONS: [Function; 18] = [
    Function { name: "opcode", draw: |random| random.octets::<4>().to_vec(), compare: bits::opcode },
    Function { name: "is_async", draw: bits::draw_opcode, compare: bits::is_async },
    Function { name: "mask_has", draw: bits::draw_mask, compare: bits::mask_has },
    Function { name: "set_bit", draw: bits::draw_map, compare: bits::set_bit },
    Function { name: "Command::parse", draw: packets::draw, compare: read::command },
    Function { name: "Acl::parse", draw: packets::draw, compare: read::acl },
    Function { name: "h4_packet_len", draw: packets::draw, compare: read::length },
    Function { name: "event", draw: |random| write::draw(random, 2, 255), compare: write::event },
    Function { name: "acl", draw: |random| write::draw(random, 3, 65_535), compare: write::acl },
    Function { name: "command_complete", draw: |random| write::draw(random, 3, 252), compare: write::command_complete },
    Function { name: "command_status", draw: |random| write::draw(random, 4, 4), compare: write::command_status },
    Function { name: "number_of_completed_packets", draw: write::draw_pairs, compare: write::completed_packets },
    Function { name: "le_meta", draw: |random| write::draw(random, 1, 254), compare: write::le_meta },
    Function { name: "H4Stream", draw: stream::draw, compare: stream::pieces },
    Function { name: "H4Stream, handed in", draw: stream::draw_any, compare: stream::any },
    Function { name: "row_bitmap", draw: rows::draw, compare: rows::bitmap },
    Function { name: "encrypt_128", draw: |random| random.octets::<32>().to_vec(), compare: cipher::encrypt },
    Function { name: "default state", draw: |_| Vec::new(), compare: rows::start },
];

/// A comparison: the function's place in the table, and the octets.
pub fn compare(plant: Option<Plant>, at: usize, octets: &[u8]) -> Compared {
    let Function { name, compare, .. } = &FUNCTIONS[at];
    compare(plant, &mut Tape(octets)).map_err(|words| format!("{name}, from {}: {words}", hex(octets)))
}

/// Octets at random for each function, so many times.
pub fn made(seed: u64, times: u64) -> impl Iterator<Item = (usize, Vec<u8>)> {
    (0..times).flat_map(move |time| {
        (0..FUNCTIONS.len()).map(move |at| {
            let mut random = Random::of_run(seed ^ 0x4843_4900, time * FUNCTIONS.len() as u64 + at as u64);
            (at, (FUNCTIONS[at].draw)(&mut random))
        })
    })
}

/// Short inputs, all of them: opcodes, groups and commands in a grid, bits of masks, and packets for the three that read them.
pub fn short() -> impl Iterator<Item = (usize, Vec<u8>)> {
    let at = |name| FUNCTIONS.iter().position(|function| function.name == name).expect("the table has the name");
    let opcodes = (0..=u16::MAX).map(|opcode| opcode.to_le_bytes().to_vec());
    let all: Vec<u8> = (0..=255).collect();
    let packets = words(&all, 2).chain(words(&packets::OCTETS, 6).filter(|packet| packet.len() > 2));
    let readers = ["Command::parse", "Acl::parse", "h4_packet_len"].map(at);
    let packets = packets.flat_map(move |packet| readers.map(|reader| (reader, packet.clone())));
    let [opcode, is_async, mask_has] = ["opcode", "is_async", "mask_has"].map(at);
    let grid = bits::grid().map(move |octets| (opcode, octets));
    let masks = bits::masks().map(move |octets| (mask_has, octets));
    grid.chain(opcodes.map(move |octets| (is_async, octets))).chain(masks).chain(packets)
}

/// Both answers, where they differ.
fn same<T: PartialEq + std::fmt::Debug>(source: T, port: T) -> Result<(), String> {
    if source == port {
        Ok(())
    } else {
        Err(format!("source {source:?}, port {port:?}"))
    }
}
