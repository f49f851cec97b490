//! The port's calls, by the safe functions of the crate `wegrulsta`, so that these are tried with them.
use super::raw::{Bitmap, Changed, Profile, State, Told, Took};
use super::{Answered, Found};
use crate::call::Call;
use crate::questions::{Handed, Rows};
use wegrulsta::{Given, Peer, Timing};

pub use wegrulsta::start;

pub fn bench(input: &[u8], out: &mut [u8]) -> usize {
    wegrulsta::bench(input, out).len()
}

impl From<Told> for Answered {
    fn from(told: Told) -> Answered {
        Answered { number: told.number, state: told.state, taken: 0, written: told.written }
    }
}

impl From<Changed> for Answered {
    fn from(changed: Changed) -> Answered {
        Answered { number: changed.number, state: changed.state, taken: 0, written: 0 }
    }
}

impl From<Took> for Answered {
    fn from(took: Took) -> Answered {
        Answered { number: took.number, state: took.state, taken: took.count, written: took.written }
    }
}

fn lent<'a>(rows: &Rows<'a>) -> wegrulsta::Rows<'a> {
    wegrulsta::Rows { opcodes: rows.opcodes, answers: rows.answers, bits: rows.bits }
}

fn timing([interval, latency, timeout]: [u16; 3]) -> Timing {
    Timing { interval, latency, timeout }
}

/// Any call; `out` is the buffer for events or packets.
pub fn make(call: &Call, handed: &Handed, address: &[u8; 6], random: u64, pool: &mut [u8], out: &mut [u8]) -> Answered {
    let (profile, state) = (handed.profile, handed.state);
    match *call {
        Call::Packet(packet) => {
            wegrulsta::packet(profile, lent(&handed.rows), state, pool, Given { address, random, packet }, out).into()
        }
        Call::Take { handle, most } => wegrulsta::take(profile, state, pool, handle, most, out).into(),
        Call::Open { handle, values } => wegrulsta::open(profile, state, handle, timing(values)).into(),
        Call::Drop { count } => wegrulsta::drop_in_flight(profile, state, count).into(),
        _ => notice(call, profile, state, out).into(),
    }
}

/// The notices that the host may hear of.
fn notice(call: &Call, profile: &Profile, state: &State, out: &mut [u8]) -> Told {
    match *call {
        Call::Completed { handle, count } => wegrulsta::completed(profile, state, handle, count, out),
        Call::Accept { handle, peer_type, peer, values, accuracy } => {
            let peer = Peer { address_type: peer_type, address: peer, clock_accuracy: accuracy };
            wegrulsta::accept(profile, state, handle, &peer, timing(values), out)
        }
        Call::Update { handle, values } => wegrulsta::update(profile, state, handle, timing(values), out),
        Call::KeyRequest { handle, random, diversifier } => {
            wegrulsta::request_key(profile, state, handle, &random, diversifier, out)
        }
        Call::CompleteDisconnect { handle } => wegrulsta::complete_disconnect(profile, state, handle, out),
        Call::RemoteDisconnect { handle, reason } => wegrulsta::remote_disconnect(profile, state, handle, reason, out),
        _ => wegrulsta::advertising_timeout(profile, state, out),
    }
}

/// The calls of a turn, over and over, as a unit makes them: the state goes in by value, and what comes back is the next one.
pub fn repeat(turn: &[Call], turns: usize, handed: &Handed, address: &[u8; 6], pool: &mut [u8], out: &mut [u8]) -> State {
    let profile = handed.profile;
    let rows = lent(&handed.rows);
    let mut s = *handed.state;
    for _ in 0..turns {
        for call in turn {
            match *call {
                Call::Packet(packet) => {
                    s = wegrulsta::packet(profile, rows, &s, pool, Given { address, random: 0, packet }, out).state;
                }
                Call::Take { handle, most } => s = wegrulsta::take(profile, &s, pool, handle, most, out).state,
                Call::Completed { handle, count } => s = wegrulsta::completed(profile, &s, handle, count, out).state,
                _ => s = make(call, &Handed { state: &s, ..*handed }, address, 0, pool, out).state,
            }
        }
    }
    s
}

pub fn found(profile: &Profile, state: &State, handle: u16) -> Found {
    Found {
        connected: wegrulsta::has_connection(profile, state, handle),
        terminating: wegrulsta::terminating(profile, state, handle),
        free_handle: wegrulsta::free_handle(profile, state),
        in_use: wegrulsta::buffers_in_use(profile, state),
    }
}

pub fn row_bitmap(rows: &Rows) -> Bitmap {
    wegrulsta::row_bitmap(lent(rows))
}

/// The functions of hci.rs, by its names, of the stream, and AES.
pub mod hci {
    use super::super::raw::Stream;
    pub use wegrulsta::{
        encrypt, is_async, mask_has, opcode, packet_length, read_acl, read_command, set_bit, stream_feed, stream_start,
        write_acl as acl, write_command_complete as command_complete, write_command_status as command_status,
        write_completed_packets as completed_packets, write_event as event, write_le_meta as le_meta,
    };

    pub fn stream_packet(stream: Stream, buffer: &[u8], at: usize) -> usize {
        wegrulsta::stream_packet(stream, buffer, at).len()
    }
}
