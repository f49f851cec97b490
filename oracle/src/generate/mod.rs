//! Runs made at random: around every limit, with the state that a limit needs reached often enough.
mod commands;
pub mod create_connection;
mod damage;
mod lines;
mod setups;
mod strange;
mod themes;
mod world;

pub use lines::bench_input;
pub use setups::{modelled_setup, plain_setup};
pub use strange::strange;
pub use world::command_packet;

use crate::random::Random;
use crate::trial::{kind, put_record, Trial, ROOM};
use themes::Theme;
use world::World;

/// How large a run may be.
#[derive(Clone, Copy)]
pub struct Size {
    pub records: usize,
    /// Whether profiles may have data packets of up to 1,019 octets, which make states of up to 40 kilobytes.
    pub long_packets: bool,
    /// A run shows its state once in so many calls, one of these, and at its end.
    pub shown_once_in: &'static [usize],
}

/// Queries are made as often as the state is shown, and where that is seldom, once in so many calls.
const QUERIES_ONCE_IN: usize = 16;

/// A run as a careful host and link could make it, and one that cares less.
pub fn trial(random: &mut Random, size: Size) -> Trial {
    trial_in_world(random, size).0
}

/// The same, with its handles and addresses.
fn trial_in_world(random: &mut Random, size: Size) -> (Trial, World) {
    let theme = random.pick(&themes::THEMES);
    let (setup, acl_len) = setups::setup(random, size.long_packets);
    let mut world = World::new(random, theme.handles, acl_len, size.long_packets);
    let mut input = Vec::new();
    let shown_once_in = random.pick(size.shown_once_in);
    let count = 1 + random.below(size.records);
    prologue(random, &mut world, theme, &mut input);
    for _ in 0..count {
        call(random, &mut world, theme, &mut input);
        if random.once_in(shown_once_in.min(QUERIES_ONCE_IN)) {
            put_record(&mut input, kind::QUERIES, &world.notice(random, kind::QUERIES));
        }
        if random.once_in(shown_once_in) {
            put_record(&mut input, kind::STATE, &[]);
        }
    }
    put_record(&mut input, kind::STATE, &[]);
    let lent = setups::buffers(random, &setup);
    let room = if random.once_in(60) { random.below(2 * ROOM) } else { room_for(count, acl_len) };
    (Trial { setup, pool: lent[0], events: lent[1], packets: lent[2], room, input }, world)
}

/// A copy of a run, damaged.
pub fn damaged(random: &mut Random, size: Size) -> Trial {
    let mut trial = if random.once_in(3) { strange(random, size) } else { trial(random, size) };
    damage::damage(random, &mut trial);
    trial
}

/// Enough for nearly all runs; where it isn't, both sides end the run at the same record.
fn room_for(count: usize, acl_len: u16) -> usize {
    let state = 400 + 4 * usize::from(acl_len.min(1_019));
    ROOM + count * state
}

/// Most runs ask for all events first, since many are off by default, and open their links.
fn prologue(random: &mut Random, world: &mut World, theme: &Theme, input: &mut Vec<u8>) {
    if !random.once_in(3) {
        for opcode in [0x0C01, 0x2001] {
            put_record(input, kind::PACKET, &world::command_packet(opcode, &[0xFF; 8]));
        }
    }
    if theme.opens_links() && !random.once_in(4) {
        for handle in world.handles.clone() {
            let mut notice = world.notice(random, kind::OPEN);
            notice[..2].copy_from_slice(&handle.to_le_bytes());
            put_record(input, kind::OPEN, &notice);
        }
    }
}

/// One call of the theme.
fn call(random: &mut Random, world: &mut World, theme: &Theme, input: &mut Vec<u8>) {
    match theme.call(random) {
        kind::PACKET => {
            let opcode = theme.opcode(random);
            put_record(input, kind::PACKET, &commands::command(random, world, opcode));
        }
        themes::DATA => put_record(input, kind::PACKET, &world.data(random)),
        themes::ODD => put_record(input, kind::PACKET, &world::odd_packet(random)),
        kind => put_record(input, kind, &world.notice(random, kind)),
    }
}
