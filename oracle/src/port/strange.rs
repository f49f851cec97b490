//! Calls with something changed that a question asks for: profile, rows, state, pool or buffer. What they have to answer is
//! decided by the questions; where these let the call pass, by the source, from the same state.
use super::checked::Calling;
use super::lent::Lent;
use super::plant::{self, Plant};
use super::raw::{Profile, State};
use super::{view, Answered};
use crate::ble::controller::Controller;
use crate::ble::profile::BleProfile;
use crate::call::Call;
use crate::octets::{array_at, hex};
use crate::questions::{holds_together, pool_octets, within_limits, Handed, Rows};
use crate::random::Random;
use crate::setup::{commands, controller_row, Setup};
use crate::source::{self, Given};
use crate::trial::{is_known, Trial, SEED};

/// All that a call is handed, of its own.
pub struct Strange<'a> {
    call: Call<'a>,
    /// Profile and state as they were.
    before: (Profile, State),
    profile: Profile,
    opcodes: Vec<u16>,
    answers: Vec<u8>,
    bits: Vec<u16>,
    state: State,
    pool: usize,
    room: usize,
    address: [u8; 6],
    random: [u8; 8],
}

impl<'a> Strange<'a> {
    /// A record has the number that decides what is changed, then the kind and the octets of a call. None where there is no
    /// such call.
    pub fn read(p: &'a [u8], setup: &Setup, state: &State, trial: &Trial) -> Option<Strange<'a>> {
        let (kind, octets) = p.get(SEED..)?.split_first()?;
        let call = if is_known(*kind, octets.len()) { Call::read(*kind, octets)? } else { return None };
        let room = if let Call::Take { .. } = call { trial.packets } else { trial.events };
        let mut strange = Strange {
            call,
            before: (setup.profile, *state),
            profile: setup.profile,
            opcodes: setup.opcodes.clone(),
            answers: setup.answers.clone(),
            bits: setup.bits.clone(),
            state: *state,
            pool: trial.pool,
            room,
            address: setup.address,
            random: setup.random,
        };
        let mut random = Random::of_run(u64::from_le_bytes(array_at(p, 0)), 2);
        for _ in 0..random.pick(&[1, 1, 1, 2]) {
            strange.change(&mut random);
        }
        Some(strange)
    }

    fn change(&mut self, random: &mut Random) {
        match random.below(10) {
            0 => self.change_profile(random),
            1 => self.change_rows(random),
            2 => self.pool = random.pick(&[0, pool_octets(&self.profile).saturating_sub(1), pool_octets(&self.profile)]),
            3 => self.room = random.pick(&[0, 5, 70, 71, 72, 1_024]),
            4 | 5 => change_links(random, &self.profile, &mut self.state),
            6 => change_packets(random, &self.profile, &mut self.state),
            7 => change_lists(random, &self.profile, &mut self.state),
            _ => change_numbers(random, &mut self.state),
        }
    }

    fn change_profile(&mut self, random: &mut Random) {
        let profile = &mut self.profile;
        match random.below(4) {
            0 => profile.acl_len = random.pick(&[0, 26, 27, 1_019, 1_020, 65_535]),
            1 => profile.acl_count = random.pick(&[0, 1, 32, 33, 255]),
            2 => profile.accept_list_size = random.pick(&[0, 1, 32, 33, 255]),
            _ => profile.resolving_list_size = random.pick(&[0, 1, 16, 17, 255]),
        }
    }

    fn change_rows(&mut self, random: &mut Random) {
        let count = random.pick(&[self.opcodes.len() + 1, self.opcodes.len().saturating_sub(1), 0, 255, 256, 257]);
        match random.below(5) {
            0 => self.opcodes.resize(count, 0x2036),
            1 => self.answers.resize(count, 1),
            2 => self.bits.resize(count, 0),
            3 => {
                self.opcodes.resize(count, 0x2036);
                self.answers.resize(count, 1);
                self.bits.resize(count, 0);
            }
            _ => {
                let at = random.below(self.answers.len().max(1));
                if let Some(answer) = self.answers.get_mut(at) {
                    *answer = random.pick(&[2, 3, 255]);
                }
            }
        }
    }

    /// The number that the call answered, rightly; or what is wrong with it, and what was changed. The pool begins as the run's.
    pub fn compare(&self, plant: Option<Plant>, pool: &[u8], other_pool: &mut Lent, out: &mut Lent) -> Result<u8, String> {
        let lengths = [self.opcodes.len(), self.answers.len(), self.bits.len(), self.pool, self.room];
        let changes = || changes(&self.before, &(self.profile, self.state));
        self.compare_call(plant, pool, other_pool, out)
            .map_err(|words| format!("a strange call, rows, pool and buffer {lengths:?} long, changed {:?}: {words}", changes()))
    }

    fn compare_call(&self, plant: Option<Plant>, pool: &[u8], other_pool: &mut Lent, out: &mut Lent) -> Result<u8, String> {
        let Strange { profile, state, room, .. } = self;
        let rows = Rows { opcodes: &self.opcodes, answers: &self.answers, bits: &self.bits };
        let handed = Handed { profile, rows, state, pool: self.pool, room: *room };
        let calling = Calling { plant, address: self.address, random: self.random, handed, together: false };
        other_pool.fill(self.pool);
        let same = pool.len().min(self.pool);
        other_pool.octets_mut()[..same].copy_from_slice(&pool[..same]);
        let before = other_pool.octets().to_vec();
        out.fill(*room);
        let answered = calling.make(&self.call, other_pool, out)?;
        if answered.number == 0 {
            self.compare_accepted(&rows, &before, &answered, other_pool.octets(), out.octets())?;
        }
        self.compare_found(plant)?;
        Ok(answered.number)
    }

    /// The queries about a handle of the state.
    fn compare_found(&self, plant: Option<Plant>) -> Result<(), String> {
        let Strange { profile, state, .. } = self;
        let handle = state.links.connections[usize::from(self.random[0] % 16)].handle;
        let (mut source, mut port) = (Vec::new(), Vec::new());
        if !within_limits(profile) {
            source::put_found(&Controller::default(), 1, handle, &mut source);
        } else if !holds_together(state, profile) {
            source::put_found(&Controller::default(), 3, handle, &mut source);
        } else {
            source::put_found(&view::controller(state, &[], profile), 0, handle, &mut source);
        }
        plant::found(plant, profile, state, handle).put(&mut port)?;
        if source != port {
            return Err(format!("the queries of handle {handle} find {}, not {}", hex(&port), hex(&source)));
        }
        Ok(())
    }

    fn compare_accepted(&self, rows: &Rows, before: &[u8], answered: &Answered, pool: &[u8], out: &[u8]) -> Result<(), String> {
        let mut controller = view::controller(&self.state, before, &self.profile);
        let loaded = BleProfile { controller: controller_row(&self.profile), commands: commands(rows) };
        BleProfile::set(loaded);
        let given = Given { address: self.address, random: self.random, ..Given::BENCH };
        let reply = source::call(&mut controller, &given, &self.call);
        if reply.octets != out[..answered.written] || usize::from(reply.taken) != answered.taken {
            return Err("it passes, and the octets or packets differ".to_string());
        }
        if controller != view::controller(&answered.state, pool, &self.profile) {
            return Err("it passes, and the states differ".to_string());
        }
        Ok(())
    }
}

/// The fields that differ, each behind the names of what it stands in.
fn changes(before: &(Profile, State), after: &(Profile, State)) -> Vec<String> {
    let (before, after) = (format!("{before:#?}"), format!("{after:#?}"));
    let mut list = Vec::new();
    let mut names: Vec<&str> = Vec::new();
    for (was, is) in before.lines().zip(after.lines()) {
        let field = is.trim_start();
        names.truncate((is.len() - field.len()) / 4);
        names.push(field.trim_end_matches(['{', '[', ' ', ',']));
        if was != is {
            list.push(format!("{}, was {}", names[2..].join(" "), was.trim().trim_end_matches(',')));
        }
    }
    list
}

fn change_links(random: &mut Random, profile: &Profile, state: &mut State) {
    let links = &mut state.links;
    match random.below(4) {
        0 => links.count = random.pick(&[0, links.count.saturating_sub(1), links.count + 1, 16, 17, usize::MAX]),
        1 => {
            let (one, other) = (random.below(16), random.below(16));
            links.connections[one].handle = links.connections[other].handle;
        }
        2 => links.in_flight = random.pick(&[0, 1, 32, 33, u16::MAX, u16::from(profile.acl_count)]),
        _ => {
            let free = usize::from(profile.acl_count).saturating_sub(links.waiting_count) as u16;
            links.in_flight = random.pick(&[free, free + 1]);
        }
    }
}

fn change_packets(random: &mut Random, profile: &Profile, state: &mut State) {
    let links = &mut state.links;
    let at = random.below(links.waiting_count.clamp(1, 32));
    let other = links.waiting[random.below(32)];
    let packet = &mut links.waiting[at];
    match random.below(5) {
        0 => packet.place = random.pick(&[other.place, 0, profile.acl_count, profile.acl_count.wrapping_sub(1), 255]),
        1 => packet.len = random.near(&[0, 5, profile.acl_len.wrapping_add(5), u16::MAX]),
        2 => packet.handle = random.pick(&[other.handle, packet.handle ^ 0x2000, 0xFFFF]),
        3 => links.waiting_count = random.pick(&[0, links.waiting_count + 1, 32, 33, usize::MAX]),
        _ => *packet = other,
    }
}

fn change_lists(random: &mut Random, profile: &Profile, state: &mut State) {
    let (accepted, identities) = (&mut state.accept_list, &mut state.resolving_list);
    let size = |size: u8| usize::from(size);
    match random.below(4) {
        0 => {
            accepted.count =
                random.pick(&[0, size(profile.accept_list_size), size(profile.accept_list_size) + 1, 32, 33, usize::MAX])
        }
        1 => {
            identities.count =
                random.pick(&[0, size(profile.resolving_list_size), size(profile.resolving_list_size) + 1, 16, 17])
        }
        2 => {
            let (from, to) = (7 * random.below(accepted.count.clamp(1, 32)), 7 * random.below(accepted.count.clamp(1, 32)));
            accepted.octets.copy_within(from..from + 7, to);
        }
        // the same identity twice, perhaps with another privacy mode
        _ => {
            let (from, to) = (8 * random.below(identities.count.clamp(1, 16)), 8 * random.below(identities.count.clamp(1, 16)));
            identities.octets.copy_within(from..from + 7, to);
        }
    }
}

fn change_numbers(random: &mut Random, state: &mut State) {
    match random.below(5) {
        0 => state.settings.advertising_family = random.pick(&[0, 1, 2, 3, 255]),
        1 => state.settings.test = random.pick(&[0, 1, 2, 3, 255]),
        2 => state.advertising.data_len = random.pick(&[0, 31, 32, 255]),
        3 => state.advertising.scan_response_len = random.pick(&[0, 31, 32, 255]),
        _ => state.recent.count = random.pick(&[0, 31, 32, 33, usize::MAX]),
    }
}

#[cfg(test)]
mod tests {
    use super::*;
    use crate::port::calls;
    use crate::setup::{bench_controller, profile};

    /// Document 01's conditions of question 3, one after the other.
    #[test]
    fn what_does_not_hold_together() {
        let profile = profile(&bench_controller());
        let mut start = calls::start();
        start.links.count = 2;
        start.links.connections[1].handle = 1;
        start.links.connections[0].handle = 0;
        assert!(holds_together(&start, &profile));
        let edits: [fn(&mut State); 10] = [
            |s| s.links.connections[1].handle = 0,
            |s| s.links.count = 17,
            |s| s.links.in_flight = 3,
            |s| s.settings.advertising_family = 3,
            |s| s.settings.test = 3,
            |s| s.advertising.data_len = 32,
            |s| s.advertising.scan_response_len = 32,
            |s| s.recent.count = 33,
            |s| s.accept_list.count = 3,
            |s| s.resolving_list.count = 3,
        ];
        for (at, edit) in edits.iter().enumerate() {
            let mut state = start;
            edit(&mut state);
            assert!(!holds_together(&state, &profile), "edit {at}");
        }
    }
}
