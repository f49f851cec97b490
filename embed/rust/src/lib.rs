//! Safe functions over the C calls of the bay radio's LE controller, for firmware and for whoever compares the controller
//! with another.
//!
//! The calls ask for pointers that are valid for their lengths, and that what they write overlaps nothing else. Slices
//! are that, so nothing is tested here, nothing is allocated, and nothing is kept: each function hands its arguments on.
//! The caller keeps a [`State`]; a call looks at it and gives the new one back beside its number, 0 or that of a refusal
//! (`docs/REFUSALS.md`). A refused call gives the state back as it came and changes no octet of pool or buffer.
//!
//! [`controller`] has the calls of a unit, [`packets`] those about packets and streams, and [`raw`] the declarations for
//! C. The names of all but `raw` stand here too. `examples/unit.rs` is a unit.
#![no_std]

pub mod controller;
mod layout;
pub mod packets;
pub mod raw;

pub use controller::*;
pub use packets::*;
pub use raw::{
    AcceptList, Advertising, Bitmap, Changed, Connected, Connection, Counters, FreeHandle, InUse, Links, MaskHas, Masks,
    PacketLength, Profile, ReadAcl, ReadCommand, Recent, ResolvingList, Scanning, Settings, State, Stream, StreamFed,
    Terminating, Told, Took, Waiting, Wrote, ANOTHER_KIND, MORE, NO_ROOM, PACKETS, SHORT_BODY, SHORT_HEADER, UNDEFINED, WHOLE,
};

pub const VERSION: &str = env!("CARGO_PKG_VERSION");

/// Whether the archive was there when this crate was built. Where it was not, a program that makes a call does not link.
pub const LINKED: bool = cfg!(archive);

/// Links at once.
pub const LINKS: usize = 16;
/// Entries of the accept list, of seven octets.
pub const ACCEPT_ENTRIES: usize = 32;
/// Identities of the resolving list, of eight octets.
pub const IDENTITIES: usize = 16;
/// Packets that wait, of all links.
pub const WAITING: usize = 32;
/// Last answers that are remembered, of three octets.
pub const LAST_ANSWERS: usize = 32;
/// Rows of opcodes.
pub const ROWS: usize = 256;
/// The bit number of a row without one.
pub const NO_BIT: u16 = 0xFFFF;
/// What one call writes at most, and an event buffer has at least.
pub const EVENT_OCTETS: usize = 71;
/// The Supported_Commands bit map.
pub const BITMAP_OCTETS: usize = 64;
/// The longest H4 packet.
pub const LONGEST_PACKET: usize = 5 + 65_535;

/// How a row answers its opcode: the command is carried out, answered with 0x11 (Unsupported Feature), or by Command
/// Complete with 0x01 (Unknown HCI Command).
pub const MODELLED: u8 = 0;
pub const UNMODELLED: u8 = 1;
pub const UNKNOWN: u8 = 2;

/// A place of the pool, and a packet that is taken at most.
pub const fn place(acl_len: u16) -> usize {
    acl_len as usize + 5
}

/// What a pool has at least.
pub const fn pool(acl_count: u8, acl_len: u16) -> usize {
    acl_count as usize * place(acl_len)
}

/// The rows of opcodes: row i has the opcode `opcodes[i]`, the answer `answers[i]` ([`MODELLED`], [`UNMODELLED`], [`UNKNOWN`])
/// and the bit number `bits[i]`. Question 2 asks whether the slices fit each other.
#[derive(Clone, Copy, Debug)]
pub struct Rows<'a> {
    pub opcodes: &'a [u16],
    pub answers: &'a [u8],
    pub bits: &'a [u16],
}

/// Why a call was refused: the number of the question whose answer was "no".
#[derive(Clone, Copy, Debug, PartialEq, Eq)]
pub struct Refusal {
    pub number: u8,
}

impl Refusal {
    pub const PROFILE: Refusal = Refusal { number: 1 };
    pub const ROWS: Refusal = Refusal { number: 2 };
    pub const STATE: Refusal = Refusal { number: 3 };
    pub const POOL: Refusal = Refusal { number: 4 };
    pub const EVENT_BUFFER: Refusal = Refusal { number: 5 };
    pub const LINK: Refusal = Refusal { number: 6 };
    pub const TAKE_BUFFER: Refusal = Refusal { number: 7 };
    pub const LENGTH: Refusal = Refusal { number: 8 };
    pub const WRITE_BUFFER: Refusal = Refusal { number: 9 };
    pub const BIT: Refusal = Refusal { number: 10 };
}

impl core::fmt::Display for Refusal {
    fn fmt(&self, to: &mut core::fmt::Formatter<'_>) -> core::fmt::Result {
        write!(to, "refused by question {}", self.number)
    }
}

/// An answer's number is 0, or that of a refusal.
fn accepted(number: u8) -> Result<(), Refusal> {
    if number == 0 {
        Ok(())
    } else {
        Err(Refusal { number })
    }
}

/// The octets of events that a call wrote to the front of its buffer.
impl Told {
    pub fn octets(&self) -> Result<usize, Refusal> {
        accepted(self.number).map(|()| self.written)
    }
}

impl Changed {
    pub fn done(&self) -> Result<(), Refusal> {
        accepted(self.number)
    }
}

/// The octets of packets that a take wrote to the front of its buffer; `count` says how many packets they are.
impl Took {
    pub fn octets(&self) -> Result<usize, Refusal> {
        accepted(self.number).map(|()| self.written)
    }
}

impl Wrote {
    pub fn octets(&self) -> Result<usize, Refusal> {
        accepted(self.number).map(|()| self.written)
    }
}

impl Connected {
    pub fn answer(&self) -> Result<bool, Refusal> {
        accepted(self.number).map(|()| self.connected)
    }
}

impl Terminating {
    /// None where no Disconnect of the host waits for the peer.
    pub fn answer(&self) -> Result<Option<u8>, Refusal> {
        accepted(self.number).map(|()| if self.reason == 0 { None } else { Some(self.reason) })
    }
}

impl FreeHandle {
    pub fn answer(&self) -> Result<u16, Refusal> {
        accepted(self.number).map(|()| self.handle)
    }
}

impl InUse {
    pub fn answer(&self) -> Result<usize, Refusal> {
        accepted(self.number).map(|()| self.count)
    }
}

impl Bitmap {
    pub fn answer(&self) -> Result<[u8; BITMAP_OCTETS], Refusal> {
        accepted(self.number).map(|()| self.map)
    }
}

impl MaskHas {
    pub fn answer(&self) -> Result<bool, Refusal> {
        accepted(self.number).map(|()| self.has)
    }
}
