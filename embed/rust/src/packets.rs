//! Packets by themselves: a stream cut into them (H4), readers and writers of HCI packets, masks and maps; then AES-128
//! and the bench lines of document 01. The writers ask questions 8 and 9, `mask_has` asks 10, the others none. For
//! firmware.
//!
//! Why each block is safe: a slice or an array behind a reference is a pointer that is not null, aligned, and valid for
//! its length; and a `&mut` overlaps nothing else that is handed in.
use crate::raw::{self, *};

/// How many octets the packet at the front takes, its indicator counted.
#[inline]
pub fn packet_length(bytes: &[u8]) -> PacketLength {
    // SAFETY: as at the top.
    unsafe { raw::wegrulsta_packet_length(bytes.as_ptr(), bytes.len()) }
}

/// A stream to which nothing was fed.
#[inline]
pub fn stream_start() -> Stream {
    // SAFETY: nothing is handed in.
    unsafe { raw::wegrulsta_stream_start() }
}

/// Moves the octets that wait to the front of the buffer, appends `bytes`, and says which of them are whole packets.
#[inline]
pub fn stream_feed(stream: Stream, buffer: &mut [u8], bytes: &[u8]) -> StreamFed {
    // SAFETY: as at the top.
    unsafe { raw::wegrulsta_stream_feed(stream, buffer.as_mut_ptr(), buffer.len(), bytes.as_ptr(), bytes.len()) }
}

/// The packet of the last feed that starts at this index of the buffer; empty past the last one.
#[inline]
pub fn stream_packet(stream: Stream, buffer: &[u8], at: usize) -> &[u8] {
    // SAFETY: as at the top.
    let len = unsafe { raw::wegrulsta_stream_packet(stream, buffer.as_ptr(), buffer.len(), at) };
    if len == 0 {
        &[]
    } else {
        &buffer[at..at + len]
    }
}

/// Writes an event.
#[inline]
pub fn write_event(code: u8, params: &[u8], out: &mut [u8]) -> Wrote {
    // SAFETY: as at the top.
    unsafe { raw::wegrulsta_write_event(code, params.as_ptr(), params.len(), out.as_mut_ptr(), out.len()) }
}

/// Writes ACL data: the handle's low 12 bits, the boundary flag above them.
#[inline]
pub fn write_acl(handle: u16, boundary: u8, load: &[u8], out: &mut [u8]) -> Wrote {
    // SAFETY: as at the top.
    unsafe { raw::wegrulsta_write_acl(handle, boundary, load.as_ptr(), load.len(), out.as_mut_ptr(), out.len()) }
}

/// Writes Command Complete.
#[inline]
pub fn write_command_complete(num: u8, op: u16, return_params: &[u8], out: &mut [u8]) -> Wrote {
    // SAFETY: as at the top.
    unsafe {
        raw::wegrulsta_write_command_complete(num, op, return_params.as_ptr(), return_params.len(), out.as_mut_ptr(), out.len())
    }
}

/// Writes Command Status; never refused by 8.
#[inline]
pub fn write_command_status(num: u8, status: u8, op: u16, out: &mut [u8]) -> Wrote {
    // SAFETY: as at the top.
    unsafe { raw::wegrulsta_write_command_status(num, status, op, out.as_mut_ptr(), out.len()) }
}

/// Writes Number Of Completed Packets, of pairs of a handle and a count; what the longer slice has more is no pair.
#[inline]
pub fn write_completed_packets(handles: &[u16], counts: &[u16], out: &mut [u8]) -> Wrote {
    // SAFETY: as at the top.
    unsafe {
        raw::wegrulsta_write_completed_packets(
            handles.as_ptr(),
            handles.len(),
            counts.as_ptr(),
            counts.len(),
            out.as_mut_ptr(),
            out.len(),
        )
    }
}

/// Writes an LE Meta event.
#[inline]
pub fn write_le_meta(subevent: u8, params: &[u8], out: &mut [u8]) -> Wrote {
    // SAFETY: as at the top.
    unsafe { raw::wegrulsta_write_le_meta(subevent, params.as_ptr(), params.len(), out.as_mut_ptr(), out.len()) }
}

/// Reads a packet as a command; octets past its length are ignored.
#[inline]
pub fn read_command(packet: &[u8]) -> ReadCommand {
    // SAFETY: as at the top.
    unsafe { raw::wegrulsta_read_command(packet.as_ptr(), packet.len()) }
}

/// Reads a packet as ACL data; octets past its length are ignored.
#[inline]
pub fn read_acl(packet: &[u8]) -> ReadAcl {
    // SAFETY: as at the top.
    unsafe { raw::wegrulsta_read_acl(packet.as_ptr(), packet.len()) }
}

/// The opcode of a group and a command in it.
#[inline]
pub fn opcode(ogf: u16, ocf: u16) -> u16 {
    // SAFETY: no pointer is handed in.
    unsafe { raw::wegrulsta_opcode(ogf, ocf) }
}

/// Whether Command Status acknowledges a command.
#[inline]
pub fn is_async(op: u16) -> bool {
    // SAFETY: no pointer is handed in.
    unsafe { raw::wegrulsta_is_async(op) }
}

/// Whether a mask has a bit. Question 10.
#[inline]
pub fn mask_has(mask: u64, bit: u32) -> MaskHas {
    // SAFETY: no pointer is handed in.
    unsafe { raw::wegrulsta_mask_has(mask, bit) }
}

/// Sets a bit of a map; past its end nothing changes.
#[inline]
pub fn set_bit(map: &mut [u8], bit: usize) {
    // SAFETY: as at the top.
    unsafe { raw::wegrulsta_set_bit(map.as_mut_ptr(), map.len(), bit) }
}

/// AES-128 (FIPS 197): a block under a key.
#[inline]
pub fn encrypt(key: &[u8; 16], block: &[u8; 16]) -> [u8; 16] {
    let mut out = [0; 16];
    // SAFETY: as at the top.
    unsafe { raw::wegrulsta_encrypt(key, block, &mut out) };
    out
}

/// Runs bench lines from the default state; what is printed stands at the front of `out`. The run ends at a line that is
/// no record, and where less than 512 octets are left.
#[inline]
pub fn bench<'a>(input: &[u8], out: &'a mut [u8]) -> &'a [u8] {
    // SAFETY: as at the top.
    let written = unsafe { raw::wegrulsta_bench(input.as_ptr(), input.len(), out.as_mut_ptr(), out.len()) };
    &out[..written]
}
