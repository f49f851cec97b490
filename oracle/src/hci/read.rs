//! The readers: whole packets are read alike, and of others the port says why not.
use super::tape::Tape;
use super::{same, Compared};
use crate::ble::hci::{self, Acl, Command};
use crate::port::plant::{self, Plant};
use crate::port::{calls, raw};

pub fn command(_: Option<Plant>, tape: &mut Tape) -> Compared {
    let packet = tape.0;
    let port = calls::hci::read_command(packet);
    let expected = match Command::parse(packet) {
        Some(read) => {
            let end = 4 + usize::from(port.len);
            same(Some(read.params), packet.get(4..end))?;
            raw::ReadCommand { kind: raw::WHOLE, len: read.params.len() as u8, opcode: read.opcode }
        }
        None => raw::ReadCommand { kind: why_not(packet, 4, hci::H4_COMMAND), len: 0, opcode: 0 },
    };
    same(expected, port)?;
    Ok((1, 0))
}

pub fn acl(plant: Option<Plant>, tape: &mut Tape) -> Compared {
    let packet = tape.0;
    let mut port = calls::hci::read_acl(packet);
    plant::read_acl(plant, packet, &mut port);
    let expected = match (Acl::parse(packet), hci::acl_parts(packet)) {
        (Some(read), Some((handle, source_boundary, data))) => {
            let end = 5 + usize::from(port.len);
            let (boundary, broadcast) = flags(packet);
            same((read.handle, source_boundary, Some(data)), (handle, boundary, packet.get(5..end)))?;
            raw::ReadAcl { kind: raw::WHOLE, boundary, broadcast, handle, len: read.len }
        }
        (None, None) => raw::ReadAcl { kind: why_not(packet, 5, hci::H4_ACL), boundary: 0, broadcast: 0, handle: 0, len: 0 },
        (read, parts) => return Err(format!("the source reads {read:?} and {parts:?}")),
    };
    same(expected, port)?;
    Ok((1, 0))
}

/// Bits 12 and 13 of the word of a data packet, and bits 14 and 15, from its octets: the source's readers give no broadcast.
fn flags(packet: &[u8]) -> (u8, u8) {
    let word = u16::from_le_bytes([packet[1], packet[2]]);
    (((word >> 12) & 3) as u8, (word >> 14) as u8)
}

/// A packet that isn't read is too short for its header, of another kind, or shorter than its header says.
fn why_not(packet: &[u8], header: usize, indicator: u8) -> u8 {
    match packet.first() {
        Some(_) if packet.len() < header => raw::SHORT_HEADER,
        Some(first) if *first != indicator => raw::ANOTHER_KIND,
        Some(_) => raw::SHORT_BODY,
        None => raw::SHORT_HEADER,
    }
}

pub fn length(_: Option<Plant>, tape: &mut Tape) -> Compared {
    let expected = match hci::h4_packet_len(tape.0) {
        Ok(Some(len)) => raw::PacketLength { kind: raw::PACKETS, indicator: 0, len },
        Ok(None) => raw::PacketLength { kind: raw::MORE, indicator: 0, len: 0 },
        Err(indicator) => raw::PacketLength { kind: raw::UNDEFINED, indicator, len: 0 },
    };
    same(expected, calls::hci::packet_length(tape.0))?;
    Ok((1, 0))
}
