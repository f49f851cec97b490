//! The functions of hci.rs, of the stream, and AES, by the source.
use crate::aes;
use crate::ble::hci::{self, Acl, Command};
use crate::port::raw::{self, MaskHas, PacketLength, ReadAcl, ReadCommand, Stream, StreamFed, Wrote};

fn wrote(fits: bool, packet: impl FnOnce() -> Vec<u8>, out: &mut [u8]) -> Wrote {
    if !fits {
        return Wrote { number: 8, written: 0 };
    }
    let packet = packet();
    let Some(front) = out.get_mut(..packet.len()) else {
        return Wrote { number: 9, written: 0 };
    };
    front.copy_from_slice(&packet);
    Wrote { number: 0, written: packet.len() }
}

pub fn event(code: u8, params: &[u8], out: &mut [u8]) -> Wrote {
    wrote(params.len() <= 255, || hci::event(code, params), out)
}

pub fn acl(handle: u16, boundary: u8, load: &[u8], out: &mut [u8]) -> Wrote {
    wrote(load.len() <= 65_535, || hci::acl(handle, boundary, load), out)
}

pub fn command_complete(number: u8, opcode: u16, params: &[u8], out: &mut [u8]) -> Wrote {
    wrote(params.len() <= 252, || hci::command_complete(number, opcode, params), out)
}

pub fn command_status(number: u8, status: u8, opcode: u16, out: &mut [u8]) -> Wrote {
    wrote(true, || hci::command_status(number, status, opcode), out)
}

pub fn completed_packets(handles: &[u16], counts: &[u16], out: &mut [u8]) -> Wrote {
    let pairs: Vec<(u16, u16)> = handles.iter().copied().zip(counts.iter().copied()).collect();
    wrote(pairs.len() <= 63, || hci::number_of_completed_packets(&pairs), out)
}

pub fn le_meta(subevent: u8, params: &[u8], out: &mut [u8]) -> Wrote {
    wrote(params.len() <= 254, || hci::le_meta(subevent, params), out)
}

fn unread(packet: &[u8], header: usize, indicator: u8) -> u8 {
    if packet.len() < header {
        raw::SHORT_HEADER
    } else if packet[0] != indicator {
        raw::ANOTHER_KIND
    } else {
        raw::SHORT_BODY
    }
}

pub fn read_command(packet: &[u8]) -> ReadCommand {
    match Command::parse(packet) {
        Some(read) => ReadCommand { kind: raw::WHOLE, len: read.params.len() as u8, opcode: read.opcode },
        None => ReadCommand { kind: unread(packet, 4, hci::H4_COMMAND), len: 0, opcode: 0 },
    }
}

pub fn read_acl(packet: &[u8]) -> ReadAcl {
    match (Acl::parse(packet), hci::acl_parts(packet)) {
        (Some(read), Some((_, boundary, _))) => {
            let broadcast = packet[2] >> 6;
            ReadAcl { kind: raw::WHOLE, boundary, broadcast, handle: read.handle, len: read.len }
        }
        _ => ReadAcl { kind: unread(packet, 5, hci::H4_ACL), boundary: 0, broadcast: 0, handle: 0, len: 0 },
    }
}

pub fn opcode(group: u16, command: u16) -> u16 {
    hci::opcode(group, command)
}

pub fn is_async(opcode: u16) -> bool {
    hci::is_async(opcode)
}

pub fn mask_has(mask: u64, bit: u32) -> MaskHas {
    if bit < 64 {
        MaskHas { number: 0, has: hci::mask_has(mask, bit) }
    } else {
        MaskHas { number: 10, has: false }
    }
}

pub fn set_bit(map: &mut [u8], bit: usize) {
    hci::set_bit(map, bit);
}

pub fn packet_length(octets: &[u8]) -> PacketLength {
    match hci::h4_packet_len(octets) {
        Ok(Some(len)) => PacketLength { kind: raw::PACKETS, indicator: 0, len },
        Ok(None) => PacketLength { kind: raw::MORE, indicator: 0, len: 0 },
        Err(indicator) => PacketLength { kind: raw::UNDEFINED, indicator, len: 0 },
    }
}

pub fn stream_start() -> Stream {
    Stream { ready: 0, held: 0 }
}

pub fn stream_feed(stream: Stream, buffer: &mut [u8], octets: &[u8]) -> StreamFed {
    let held = stream.ready.checked_add(stream.held).and_then(|end| buffer.get(stream.ready..end));
    let Some(mut all) = held.map(<[u8]>::to_vec) else {
        return StreamFed { stream, kind: raw::NO_ROOM, indicator: 0 };
    };
    all.extend(octets);
    if all.len() > buffer.len() {
        return StreamFed { stream, kind: raw::NO_ROOM, indicator: 0 };
    }
    buffer[..all.len()].copy_from_slice(&all);
    match hci::H4Stream::new().feed(&all) {
        Ok(packets) => {
            let ready = packets.iter().map(Vec::len).sum();
            StreamFed { stream: Stream { ready, held: all.len() - ready }, kind: raw::PACKETS, indicator: 0 }
        }
        Err(indicator) => StreamFed { stream: Stream { ready: 0, held: all.len() }, kind: raw::UNDEFINED, indicator },
    }
}

pub fn stream_packet(stream: Stream, buffer: &[u8], at: usize) -> usize {
    let ready = &buffer[..stream.ready.min(buffer.len())];
    let rest = ready.get(at..).unwrap_or_default();
    hci::h4_packet_len(rest).ok().flatten().filter(|length| *length <= rest.len()).unwrap_or(0)
}

pub fn encrypt(key: &[u8; 16], block: &[u8; 16]) -> [u8; 16] {
    aes::encrypt_128(key, block)
}
