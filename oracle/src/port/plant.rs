//! Differences planted on purpose into what the port answers, by the environment variable ORACLE_PLANT: to see that each is
//! found, and that a run is shrunk.
use super::checked::Calling;
use super::raw::{self, State};
use super::{calls, Answered, Found};
use crate::call::Call;

#[derive(Clone, Copy, Debug, PartialEq, Eq)]
pub enum Plant {
    /// Handles of commands are masked as those of ACL words are: a slip that document 01 names.
    Mask,
    /// A take into a small buffer is refused with 6 instead of 7: one bit.
    Bit,
    /// The queries find handle 0 where 1 is the lowest free one.
    Free,
    /// A refused packet changes an octet of the pool.
    Pool,
    /// The octet behind the events changes.
    Behind,
    /// The second packet that waits has the place of the first.
    Place,
    /// A link past the count is found.
    Past,
    /// A state with two identities alike is refused with 4 in place of 3.
    Together,
    /// A counter stays at 2^64 - 1 in place of wrapping.
    Wrap,
    /// The reader of ACL data takes the broadcast flag for the boundary flag's high bit.
    Acl,
    /// 256 octets of parameters are refused with 9 in place of 8.
    Writer,
    /// A stream holds an octet less.
    Stream,
    /// The highest bit of the bit map is clear.
    Bitmap,
    /// One bit of a block.
    Aes,
}

const NAMES: [(&str, Plant); 14] = [
    ("mask", Plant::Mask),
    ("bit", Plant::Bit),
    ("free", Plant::Free),
    ("pool", Plant::Pool),
    ("behind", Plant::Behind),
    ("place", Plant::Place),
    ("past", Plant::Past),
    ("together", Plant::Together),
    ("wrap", Plant::Wrap),
    ("acl", Plant::Acl),
    ("writer", Plant::Writer),
    ("stream", Plant::Stream),
    ("bitmap", Plant::Bitmap),
    ("aes", Plant::Aes),
];

impl Plant {
    pub fn named(name: &str) -> Option<Plant> {
        NAMES.iter().find(|(other, _)| *other == name).map(|(_, plant)| *plant)
    }

    pub fn names() -> String {
        NAMES.map(|(name, _)| name).join(", ")
    }
}

/// A call, with the difference.
pub fn make(calling: &Calling, call: &Call, pool: &mut [u8], out: &mut [u8]) -> Answered {
    let Some(plant) = calling.plant else {
        return calling.call(call, pool, out);
    };
    let mut masked = Vec::new();
    let call = match *call {
        Call::Packet(packet @ [0x01, 0x30, 0x20, 2, _, _, ..]) if plant == Plant::Mask => {
            masked.extend_from_slice(packet);
            masked[5] &= 0x0F;
            Call::Packet(&masked)
        }
        call => call,
    };
    let mut answered = calling.call(&call, pool, out);
    change(plant, calling, &call, &mut answered, pool, out);
    answered
}

fn change(plant: Plant, calling: &Calling, call: &Call, answered: &mut Answered, pool: &mut [u8], out: &mut [u8]) {
    let refused = answered.number != 0;
    let counters = &mut answered.state.counters;
    match (plant, call) {
        (Plant::Bit, Call::Take { .. }) if answered.number == 7 => answered.number = 6,
        (Plant::Pool, Call::Packet(_)) if refused && !pool.is_empty() => pool[0] ^= 1,
        (Plant::Behind, _) if answered.written > 0 && answered.written < out.len() => out[answered.written] ^= 1,
        (Plant::Place, _) if !refused && answered.state.links.waiting_count > 1 => {
            answered.state.links.waiting[1].place = answered.state.links.waiting[0].place;
        }
        (Plant::Together, _) if answered.number == 3 && two_alike(calling.handed.state) => answered.number = 4,
        (Plant::Wrap, _) if !refused && calling.handed.state.counters.commands == u64::MAX => counters.commands = u64::MAX,
        _ => {}
    }
}

fn two_alike(state: &State) -> bool {
    let list = state.resolving_list.octets.as_chunks::<8>().0;
    state.resolving_list.count > 1 && list[0][..7] == list[1][..7]
}

/// The queries, with the difference.
pub fn found(plant: Option<Plant>, profile: &raw::Profile, state: &State, handle: u16) -> Found {
    let mut found = calls::found(profile, state, handle);
    match plant {
        Some(Plant::Free) if found.free_handle.handle == 1 => found.free_handle.handle = 0,
        Some(Plant::Past) if found.connected.number == 0 => {
            let past = state.links.connections.get(state.links.count);
            found.connected.connected |= past.is_some_and(|link| link.handle == handle);
        }
        _ => {}
    }
    found
}

pub fn read_acl(plant: Option<Plant>, packet: &[u8], read: &mut raw::ReadAcl) {
    if plant == Some(Plant::Acl) && read.kind == raw::WHOLE {
        read.boundary |= (packet[2] >> 5) & 2;
    }
}

pub fn wrote(plant: Option<Plant>, length: usize, wrote: &mut raw::Wrote) {
    if plant == Some(Plant::Writer) && wrote.number == 8 && length == 256 {
        wrote.number = 9;
    }
}

pub fn fed(plant: Option<Plant>, fed: &mut raw::StreamFed) {
    if plant == Some(Plant::Stream) && fed.stream.held > 7 {
        fed.stream.held -= 1;
    }
}

pub fn bitmap(plant: Option<Plant>, bitmap: &mut raw::Bitmap) {
    if plant == Some(Plant::Bitmap) {
        bitmap.map[63] &= 0x7F;
    }
}

pub fn encrypted(plant: Option<Plant>, block: &mut [u8; 16]) {
    if plant == Some(Plant::Aes) && block[0] == 0 {
        block[15] ^= 1;
    }
}
