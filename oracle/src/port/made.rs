//! States that are made, not reached: any values in all fields, as long as the state holds together. Both sides go on from them.
use super::raw::{self, Profile, State, Waiting};
use super::view;
use crate::ble::controller::Controller;
use crate::octets::{array_at, word_at};
use crate::questions::{place_octets, pool_octets, within_limits};
use crate::random::Random;
use crate::trial::SEED;

/// The octets of a record: what decides the values, how many handles there are, those, and addresses up to its end.
pub fn put(seed: [u8; SEED], handles: &[u16], addresses: &[[u8; 6]]) -> Vec<u8> {
    let mut p = seed.to_vec();
    p.push(handles.len() as u8);
    p.extend(handles.iter().flat_map(|handle| handle.to_le_bytes()));
    p.extend(addresses.as_flattened());
    p
}

/// The state that a record makes, with the octets of its pool; None where the record is too short, the profile isn't within its
/// limits or the pool has fewer octets than its places.
pub fn made(p: &[u8], profile: &Profile, pool: usize) -> Option<(State, Vec<u8>)> {
    let handles = usize::from(*p.get(SEED)?);
    let (handles, addresses) = p[SEED + 1..].split_at_checked(2 * handles)?;
    if !within_limits(profile) || pool < pool_octets(profile) {
        return None;
    }
    let mut random = Random::of_run(u64::from_le_bytes(array_at(p, 0)), 0);
    let mut state = garbage(&mut random);
    bound(&mut random, &mut state);
    let addresses = addresses.as_chunks().0;
    lists(&mut random, profile, &mut state, addresses);
    let handles: Vec<u16> = handles.chunks(2).map(|handle| word_at(handle, 0)).collect();
    links(&mut random, profile, &mut state, &handles);
    let mut octets = vec![0; pool_octets(profile)];
    random.fill(&mut octets);
    Some((state, octets))
}

/// The same as the source has it.
pub fn controller(p: &[u8], profile: &Profile, pool: usize) -> Option<Controller> {
    made(p, profile, pool).map(|(state, octets)| view::controller(&state, &octets, profile))
}

/// The fields with a limit of their own, and values that calls depend on.
fn bound(random: &mut Random, state: &mut State) {
    state.settings.advertising_family = random.below(3) as u8;
    state.settings.test = random.pick(&[0, 0, 0, 1, 2]);
    state.advertising.data_len = random.below(32) as u8;
    state.advertising.scan_response_len = random.below(32) as u8;
    state.recent.count = random.pick(&[0, 1, 30, 31, 32]);
    state.scanning.enable[0] = random.pick(&[0, 0, 1, 255]);
    for mask in [&mut state.masks.event, &mut state.masks.le_event, &mut state.masks.event_page2] {
        *mask = random.pick(&[u64::MAX, u64::MAX, 0, *mask]);
    }
}

/// Entries that differ, up to the sizes of the profile.
fn lists(random: &mut Random, profile: &Profile, state: &mut State, addresses: &[[u8; 6]]) {
    let accepted = entries(random, profile.accept_list_size, addresses);
    let identities = entries(random, profile.resolving_list_size, addresses);
    state.accept_list.count = accepted.len();
    state.accept_list.octets[..7 * accepted.len()].copy_from_slice(accepted.as_flattened());
    state.resolving_list.count = identities.len();
    for (entry, identity) in state.resolving_list.octets.chunks_mut(8).zip(&identities) {
        entry[..7].copy_from_slice(identity);
        entry[7] = random.pick(&[0, 1, entry[7]]);
    }
}

fn entries(random: &mut Random, size: u8, addresses: &[[u8; 6]]) -> Vec<[u8; 7]> {
    let count = random.pick(&[0, size / 2, size.saturating_sub(1), size, size]);
    let mut list: Vec<[u8; 7]> = Vec::new();
    for _ in 0..count {
        let mut entry: [u8; 7] = random.octets();
        entry[0] = random.pick(&[0, 1, 0xFF, entry[0]]);
        if !addresses.is_empty() && !random.once_in(4) {
            entry[1..].copy_from_slice(&random.pick(addresses));
        }
        if !list.contains(&entry) {
            list.push(entry);
        }
    }
    list
}

/// Links of some handles, packets that wait in them and packets in flight.
fn links(random: &mut Random, profile: &Profile, state: &mut State, handles: &[u16]) {
    let links = &mut state.links;
    let most = random.pick(&[0, 1, 15, 16, 16]);
    links.count = 0;
    for handle in handles {
        if links.count < most && links.connections[..links.count].iter().all(|link| link.handle != *handle) {
            links.connections[links.count].handle = *handle;
            links.count += 1;
        }
    }
    let places = usize::from(profile.acl_count);
    let in_use = random.pick(&[0, places / 2, places.saturating_sub(1), places]);
    let waiting = if links.count == 0 { 0 } else { random.below(in_use + 1) };
    links.waiting_count = waiting;
    links.in_flight = random.pick(&[0, (in_use - waiting) as u16]);
    let order = random.shuffled(profile.acl_count);
    for (packet, place) in links.waiting[..waiting].iter_mut().zip(order) {
        let handle = links.connections[random.below(links.count)].handle;
        *packet = Waiting { handle, len: 5 + random.below(place_octets(profile) - 4) as u16, place };
    }
}

/// Any values in every field.
pub fn garbage(random: &mut Random) -> State {
    State {
        masks: raw::Masks { event: random.number(), event_page2: random.number(), le_event: random.number() },
        settings: raw::Settings {
            random_address: random.pick(&[[0; 6], [3; 6]]),
            address_resolution: flag(random),
            rpa_timeout: random.word(),
            suggested_data_length: [random.word(), random.word()],
            default_phy: random.octets(),
            host_flow_control: random.octet(),
            advertising_family: random.octet(),
            test: random.octet(),
            rf_path_compensation: [random.word(), random.word()],
        },
        advertising: advertising(random),
        scanning: raw::Scanning {
            params: random.octets(),
            enable: random.octets(),
            initiating: flag(random),
            initiator_filter: random.octet(),
        },
        accept_list: raw::AcceptList { octets: filled(random), count: random.number() as usize },
        resolving_list: raw::ResolvingList { octets: filled(random), count: random.number() as usize },
        links: any_links(random),
        counters: raw::Counters {
            commands: counter(random),
            unknown_commands: counter(random),
            acl_packets: counter(random),
            acl_dropped: counter(random),
        },
        recent: raw::Recent { octets: filled(random), count: random.number() as usize },
    }
}

fn advertising(random: &mut Random) -> raw::Advertising {
    let mut params: [u8; 15] = random.octets();
    params[4] = random.pick(&[0, 1, 2, 3, 4, params[4]]);
    params[5] = random.pick(&[0, 1, 2, 3, params[5]]);
    raw::Advertising {
        params,
        data: filled(random),
        data_len: random.octet(),
        scan_response: filled(random),
        scan_response_len: random.octet(),
        enabled: flag(random),
    }
}

fn any_links(random: &mut Random) -> raw::Links {
    raw::Links {
        connections: std::array::from_fn(|_| connection(random)),
        count: random.number() as usize,
        waiting: std::array::from_fn(|_| Waiting { handle: random.below(8) as u16, len: random.word(), place: random.octet() }),
        waiting_count: random.number() as usize,
        in_flight: random.word(),
    }
}

/// Handles of few values, so that those past a count stand among the first ones too.
fn connection(random: &mut Random) -> raw::Connection {
    raw::Connection {
        handle: random.below(8) as u16,
        interval: random.word(),
        latency: random.word(),
        timeout: random.word(),
        tx_octets: random.word(),
        tx_time: random.word(),
        auth_payload_timeout: random.word(),
        tx_phy: random.octet(),
        rx_phy: random.octet(),
        terminating: random.pick(&[0, 0, 0x13, 0xFF]),
        ltk_requested: flag(random),
    }
}

/// No, or an octet that says yes.
fn flag(random: &mut Random) -> u8 {
    let any = yes(random);
    random.pick(&[0, 0, 1, any])
}

/// Any octet but 0 says yes.
pub fn yes(random: &mut Random) -> u8 {
    1 + random.below(255) as u8
}

/// Often one that the next call or two wrap to zero.
fn counter(random: &mut Random) -> u64 {
    let any = random.number();
    random.pick(&[u64::MAX, u64::MAX - 1, u64::from(u32::MAX), any])
}

fn filled<const N: usize>(random: &mut Random) -> [u8; N] {
    let mut octets = [0; N];
    random.fill(&mut octets);
    octets
}

#[cfg(test)]
mod tests {
    use super::*;
    use crate::questions::holds_together;
    use crate::setup::{bench_controller, profile};

    #[test]
    fn made_states_hold_together() {
        let profile = Profile { acl_count: 32, accept_list_size: 32, resolving_list_size: 16, ..profile(&bench_controller()) };
        let handles: Vec<u16> = (0..20).collect();
        for seed in 0..2_000u64 {
            let p = put(seed.to_le_bytes(), &handles, &[[7; 6], [8; 6]]);
            let (state, _) = made(&p, &profile, 1_024).expect("the record is whole");
            assert!(holds_together(&state, &profile), "{state:?}");
        }
    }
}
