//! The source's side: the same octets in, the same answers out. The questions that the source has no limit for are asked here,
//! before its call is made, in document 01's order; what the customer asked for since stands before it too (`amendments`).
use crate::amendments;
use crate::ble::controller::Controller;
use crate::ble::profile::BleProfile;
use crate::call::Call;
use crate::counts::Counts;
use crate::dump::put_state;
use crate::octets::{put_word, word_at};
use crate::port::made;
use crate::questions::{asked, pool_octets, rows_fit, within_limits, EVENT_ROOM, LINKS};
use crate::setup::{self, Setup};
use crate::trial::{kind, Trial};

/// What a call is told by the setup, besides the profile, and what the setup makes of questions 1, 2 and 4.
pub struct Given {
    pub address: [u8; 6],
    pub random: [u8; 8],
    pub profile_fits: bool,
    pub rows_fit: bool,
    pub pool_fits: bool,
    /// Octets of the lent buffers.
    pub events: usize,
    pub packets: usize,
}

impl Given {
    /// The bench's.
    pub const BENCH: Given =
        Given { address: [0; 6], random: [0; 8], profile_fits: true, rows_fit: true, pool_fits: true, events: 71, packets: 64 };

    fn of(trial: &Trial, setup: &Setup) -> Given {
        Given {
            address: setup.address,
            random: setup.random,
            profile_fits: within_limits(&setup.profile),
            rows_fit: rows_fit(&setup.rows()),
            pool_fits: trial.pool >= pool_octets(&setup.profile),
            events: trial.events,
            packets: trial.packets,
        }
    }
}

/// What an accepted call gives: how many packets were taken, and the octets of events or packets end to end.
#[derive(Default)]
pub struct Reply {
    pub taken: u8,
    pub octets: Vec<u8>,
}

/// All answers to a run, into `out`.
pub fn run(trial: &Trial, out: &mut Vec<u8>, counts: &mut Counts) {
    out.clear();
    let Some(setup) = setup::read(&trial.setup) else {
        return;
    };
    BleProfile::set(setup.loaded.clone());
    let given = Given::of(trial, &setup);
    let mut controller = Controller::default();
    let answered = trial.run(out, &mut |kind, p, out| {
        match kind {
            kind::STATE => put_shown(&controller, out),
            kind::QUERIES => put_found(&controller, u8::from(!given.profile_fits), word_at(p, 0), out),
            kind::HAND_IN => {
                if let Some(state) = made::controller(p, &setup.profile, trial.pool) {
                    controller = state;
                }
            }
            // these are for the port alone
            kind::DISTURB | kind::STRANGE => {}
            _ => {
                answer(&mut controller, &given, kind, p, out, counts);
                return Ok(());
            }
        }
        counts.asked(kind);
        Ok(())
    });
    answered.expect("the source has an answer to each record");
}

/// The state as octets, behind how many they are.
pub fn put_shown(c: &Controller, out: &mut Vec<u8>) {
    let start = out.len();
    put_word(out, 0);
    put_state(c, out);
    let length = (out.len() - start - 2) as u16;
    out[start..start + 2].copy_from_slice(&length.to_le_bytes());
}

/// What the four queries find, the first two of a handle; where they are refused by a number, nothing.
pub fn put_found(c: &Controller, number: u8, handle: u16, out: &mut Vec<u8>) {
    if number != 0 {
        out.extend([number << 4, 0, 0, 0, 0, 0, 0]);
        return;
    }
    out.push(u8::from(c.has_connection(handle)));
    out.extend(c.terminating(handle).map_or([0, 0], |reason| [1, reason]));
    put_word(out, c.free_handle());
    put_word(out, c.acl_buffers_in_use() as u16);
}

fn answer(c: &mut Controller, given: &Given, kind: u8, p: &[u8], out: &mut Vec<u8>, counts: &mut Counts) {
    let Some(wanted) = Call::read(kind, p) else { return };
    let number = refusal(c, given, &wanted);
    let reply = if number == 0 { call(c, given, &wanted) } else { Reply::default() };
    out.extend([number, reply.taken]);
    put_word(out, reply.octets.len() as u16);
    out.extend(&reply.octets);
    counts.call(kind, p, number, &reply.octets);
}

/// The number of the first question with a "no", 0 where there is none. The state always holds together.
pub fn refusal(c: &Controller, given: &Given, call: &Call) -> u8 {
    let yes = |number: u8| match (number, call) {
        (1, _) => given.profile_fits,
        (2, _) => given.rows_fit,
        (4, _) => given.pool_fits,
        (5, _) => given.events >= EVENT_ROOM,
        (6, Call::Open { handle, .. } | Call::Accept { handle, .. }) => c.has_connection(*handle) || c.connections.len() < LINKS,
        (7, Call::Take { handle, most }) => to_take(c, *handle, *most) <= given.packets,
        _ => true,
    };
    asked(call).iter().copied().find(|number| !yes(*number)).unwrap_or(0)
}

/// How many octets a take would give.
fn to_take(c: &Controller, handle: u16, most: usize) -> usize {
    let link = c.connections.iter().find(|link| link.handle == handle);
    link.map_or(0, |link| link.tx.iter().take(most).map(Vec::len).sum())
}

/// An accepted call, by the source.
pub fn call(c: &mut Controller, given: &Given, call: &Call) -> Reply {
    let event = match *call {
        Call::Packet(p) => return packet(c, given, p),
        Call::Take { handle, most } => {
            let packets = c.take_transmit(handle, most);
            return Reply { taken: packets.len() as u8, octets: packets.concat() };
        }
        Call::Open { handle, values: [interval, latency, timeout] } => {
            c.open_connection(handle, interval, latency, timeout);
            None
        }
        Call::Completed { handle, count } => c.completed(handle, count),
        Call::Drop { count } => {
            c.drop_in_flight(count);
            None
        }
        Call::Accept { handle, peer_type, peer, values: [interval, latency, timeout], accuracy } => {
            c.accept_connection(handle, peer_type != 0, peer, interval, latency, timeout, accuracy)
        }
        Call::Update { handle, values: [interval, latency, timeout] } => c.peer_update(handle, interval, latency, timeout),
        Call::KeyRequest { handle, random, diversifier } => c.request_ltk(handle, random, diversifier),
        Call::CompleteDisconnect { handle } => c.complete_disconnect(handle),
        Call::RemoteDisconnect { handle, reason } => c.remote_disconnect(handle, reason),
        Call::Timeout => c.advertising_timeout(),
    };
    Reply { taken: 0, octets: event.unwrap_or_default() }
}

/// The random number is the eight octets that the source draws.
fn packet(c: &mut Controller, given: &Given, p: &[u8]) -> Reply {
    if amendments::dropped_by_flags(c, p) {
        return Reply::default();
    }
    let refused = amendments::with_refused_interval(p);
    let p = refused.as_deref().unwrap_or(p);
    let events = c.on_packet(given.address, p, &mut |octets| octets.copy_from_slice(&given.random));
    Reply { taken: 0, octets: events.concat() }
}

#[cfg(test)]
mod tests {
    use super::*;
    use crate::generate::plain_setup;
    use crate::octets::hex;
    use crate::trial::{put_record, ROOM};

    fn plain(input: Vec<u8>) -> Trial {
        Trial { setup: plain_setup(), pool: 64, events: 71, packets: 64, room: 1 << 20, input }
    }

    fn answers(trial: &Trial) -> String {
        let mut out = Vec::new();
        run(trial, &mut out, &mut Counts::off());
        hex(&out)
    }

    fn record(kind: u8, octets: &[u8]) -> Vec<u8> {
        let mut input = Vec::new();
        put_record(&mut input, kind, octets);
        input
    }

    #[test]
    fn default_state() {
        let masks = "ffffffffff1f0000".to_string() + &"00".repeat(8) + "1f00000000000000";
        let settings = "00".repeat(6) + "00" + "8403" + "1b00" + "4801" + &"00".repeat(10);
        let advertising = "00080008".to_string() + &"00".repeat(9) + "0700" + "000000";
        let scanning = "00100010000000".to_string() + "00000000";
        let rest = "00".repeat(1 + 1 + 1 + 2 + 32 + 1);
        let state = masks + &settings + &advertising + &scanning + &rest;
        assert_eq!(state.len(), 2 * 114);
        assert_eq!(answers(&plain(record(kind::STATE, &[]))), "7200".to_string() + &state);
    }

    #[test]
    fn seventeenth_handle() {
        let opened = |n: u8| record(kind::OPEN, &[n, 0, 24, 0, 0, 0, 42, 0]);
        let mut input: Vec<u8> = (0..17).flat_map(opened).collect();
        input.extend(opened(3));
        assert_eq!(answers(&plain(input)), "00000000".repeat(16) + "06000000" + "00000000");
    }

    #[test]
    fn small_buffers() {
        let reset = record(kind::PACKET, &[1, 3, 0x0C, 0]);
        assert_eq!(answers(&Trial { events: 70, ..plain(reset.clone()) }), "05000000");
        assert_eq!(answers(&plain(reset)), "00000700040e0405030c00");
        let mut input = record(kind::OPEN, &[1, 0, 24, 0, 0, 0, 42, 0]);
        input.extend(record(kind::PACKET, &[2, 1, 0x20, 1, 0, 0xAA, 0xBB]));
        input.extend(record(kind::TAKE, &[1, 0, 9, 0]));
        assert_eq!(answers(&Trial { packets: 5, ..plain(input.clone()) }), "00000000".repeat(2) + "07000000");
        assert_eq!(answers(&Trial { packets: 6, ..plain(input) }), "00000000".repeat(2) + "00010600" + "0201200100aa");
    }

    #[test]
    fn queries() {
        let asked = |handle: u8| record(kind::QUERIES, &[handle, 0]);
        let mut input = asked(1);
        for handle in [1, 2] {
            input.extend(record(kind::OPEN, &[handle, 0, 24, 0, 0, 0, 42, 0]));
        }
        input.extend(record(kind::PACKET, &[2, 1, 0, 1, 0, 0xAA]));
        input.extend(record(kind::PACKET, &[1, 6, 4, 3, 1, 0, 0x13]));
        input.extend([asked(1), asked(2), asked(3)].concat());
        let disconnected = "00000700040f0400050604";
        let found = ["01011303000100", "01000003000100", "00000003000100"].concat();
        let before = "00000001000000".to_string() + &"00000000".repeat(3);
        assert_eq!(answers(&plain(input)), before + disconnected + &found);
    }

    #[test]
    fn no_setup() {
        let input = record(kind::STATE, &[]);
        assert_eq!(answers(&Trial { room: ROOM - 1, ..plain(input.clone()) }), "");
        let mut cut = plain(input);
        cut.setup.pop();
        assert_eq!(answers(&cut), "");
    }
}
