//! Changes to a state that no call may show: array elements past a count, the octet of a flag that says yes, which place of the
//! pool holds which waiting packet, and the octets of places that hold none.
use super::made::{garbage, yes};
use super::raw::{Profile, State};
use crate::questions::{place_octets, pool_octets, within_limits};
use crate::random::Random;

pub fn disturb(seed: [u8; 8], profile: &Profile, state: &mut State, pool: &mut [u8]) {
    let mut random = Random::of_run(u64::from_le_bytes(seed), 1);
    past_counts(state, &garbage(&mut random));
    flags(&mut random, state);
    if within_limits(profile) && pool.len() >= pool_octets(profile) {
        places(&mut random, profile, state, pool);
    }
}

/// Each element past a count is another state's.
fn past_counts(state: &mut State, other: &State) {
    let State { advertising, accept_list, resolving_list, links, recent, .. } = state;
    fill(&mut advertising.data, advertising.data_len.into(), &other.advertising.data);
    fill(&mut advertising.scan_response, advertising.scan_response_len.into(), &other.advertising.scan_response);
    fill(&mut accept_list.octets, 7 * accept_list.count, &other.accept_list.octets);
    fill(&mut resolving_list.octets, 8 * resolving_list.count, &other.resolving_list.octets);
    fill(&mut links.connections, links.count, &other.links.connections);
    fill(&mut links.waiting, links.waiting_count, &other.links.waiting);
    fill(&mut recent.octets, 3 * recent.count, &other.recent.octets);
}

fn fill<T: Copy>(array: &mut [T], from: usize, other: &[T]) {
    array[from..].copy_from_slice(&other[from..]);
}

/// A flag that isn't 0 becomes any other octet that isn't.
fn flags(random: &mut Random, state: &mut State) {
    let State { settings, advertising, scanning, links, .. } = state;
    let of_links = links.connections[..links.count].iter_mut().map(|link| &mut link.ltk_requested);
    let of_state = [&mut settings.address_resolution, &mut advertising.enabled, &mut scanning.initiating];
    for flag in of_links.chain(of_state) {
        if *flag != 0 {
            *flag = yes(random);
        }
    }
}

/// The places change their numbers, with their octets; those that hold no packet get other ones.
fn places(random: &mut Random, profile: &Profile, state: &mut State, pool: &mut [u8]) {
    let size = place_octets(profile);
    let before = pool.to_vec();
    let moved = random.shuffled(profile.acl_count);
    random.fill(&mut pool[..pool_octets(profile)]);
    for packet in &mut state.links.waiting[..state.links.waiting_count] {
        let place = moved[usize::from(packet.place)];
        let (from, to) = (size * usize::from(packet.place), size * usize::from(place));
        let length = usize::from(packet.len);
        pool[to..to + length].copy_from_slice(&before[from..from + length]);
        packet.place = place;
    }
}
