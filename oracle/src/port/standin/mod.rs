//! The source in the port's place, where there is no archive: the same functions, decided by the source and by the questions.
//! It tries the oracle, not the port.
pub mod hci;
mod store;

use super::raw::{self, Profile, State};
use super::{view, Answered, Found};
use crate::ble::controller::{row_bitmap as source_bitmap, Controller};
use crate::ble::profile::BleProfile;
use crate::call::Call;
use crate::counts::Counts;
use crate::lines;
use crate::questions::{asked, first_no, holds_together, rows_fit, within_limits, Handed, Rows};
use crate::setup::{commands, controller_row};
use crate::source::{self, Given};

pub fn start() -> State {
    store::start()
}

pub fn bench(input: &[u8], out: &mut [u8]) -> usize {
    let mut octets = Vec::new();
    lines::run(input, out.len(), &mut octets, &mut Counts::off());
    out[..octets.len()].copy_from_slice(&octets);
    octets.len()
}

/// Any call; `out` is the buffer for events or packets.
pub fn make(call: &Call, handed: &Handed, address: &[u8; 6], random: u64, pool: &mut [u8], out: &mut [u8]) -> Answered {
    let number = first_no(call, handed, asked(call).iter());
    if number != 0 {
        return Answered { number, state: *handed.state, taken: 0, written: 0 };
    }
    BleProfile::set(loaded(handed.profile, &handed.rows));
    let mut controller = view::controller(handed.state, pool, handed.profile);
    let given = Given { address: *address, random: random.to_le_bytes(), ..Given::BENCH };
    let reply = source::call(&mut controller, &given, call);
    out[..reply.octets.len()].copy_from_slice(&reply.octets);
    let state = store::state(&controller, handed.state, handed.profile, pool);
    Answered { number, state, taken: usize::from(reply.taken), written: reply.octets.len() }
}

pub fn repeat(turn: &[Call], turns: usize, handed: &Handed, address: &[u8; 6], pool: &mut [u8], out: &mut [u8]) -> State {
    let mut state = *handed.state;
    for _ in 0..turns {
        for call in turn {
            state = make(call, &Handed { state: &state, ..*handed }, address, 0, pool, out).state;
        }
    }
    state
}

fn loaded(profile: &Profile, rows: &Rows) -> BleProfile {
    BleProfile { controller: controller_row(profile), commands: commands(rows) }
}

pub fn found(profile: &Profile, state: &State, handle: u16) -> Found {
    let number = if !within_limits(profile) { 1 } else { 3 * u8::from(!holds_together(state, profile)) };
    let controller = if number == 0 { Some(view::controller(state, &[], profile)) } else { None };
    let seen = controller.as_ref();
    Found {
        connected: raw::Connected { number, connected: seen.is_some_and(|c| c.has_connection(handle)) },
        terminating: raw::Terminating { number, reason: seen.and_then(|c| c.terminating(handle)).unwrap_or(0) },
        free_handle: raw::FreeHandle { number, handle: seen.map_or(0, Controller::free_handle) },
        in_use: raw::InUse { number, count: seen.map_or(0, Controller::acl_buffers_in_use) },
    }
}

pub fn row_bitmap(rows: &Rows) -> raw::Bitmap {
    if !rows_fit(rows) {
        return raw::Bitmap { number: 2, map: [0; 64] };
    }
    let profile = BleProfile { controller: crate::setup::bench_controller(), commands: commands(rows) };
    raw::Bitmap { number: 0, map: source_bitmap(&profile) }
}
