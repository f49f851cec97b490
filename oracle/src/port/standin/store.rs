//! The port's state of the source's: lists in arrays, packets in the pool.
use crate::ble::controller::{Connection, Controller};
use crate::port::raw::{self, Profile, State, Waiting};
use crate::questions::{place_octets, waiting};

/// The default state. Elements past a count are 0.
pub fn start() -> State {
    state_of(&Controller::default())
}

/// The state after a call: packets that waited before keep their places, and one that was queued gets a free one.
pub fn state(c: &Controller, before: &State, profile: &Profile, pool: &mut [u8]) -> State {
    let mut state = state_of(c);
    let mut list: Vec<Waiting> = Vec::new();
    for packet in waiting(before) {
        let has = |link: &Connection| link.tx.len();
        let link = c.connections.iter().find(|link| link.handle == packet.handle);
        let left = link.map_or(0, has).min(of_link(before, packet.handle));
        // those that are left are the last ones of their link
        let later = waiting(before).iter().filter(|other| other.handle == packet.handle).skip_while(|other| *other != packet);
        if later.count() <= left {
            list.push(*packet);
        }
    }
    for link in &c.connections {
        let kept = list.iter().filter(|packet| packet.handle == link.handle).count();
        for octets in &link.tx[kept..] {
            list.push(store(link.handle, octets, waiting(before), profile, pool));
        }
    }
    state.links.waiting[..list.len()].copy_from_slice(&list);
    state.links.waiting_count = list.len();
    state
}

fn of_link(state: &State, handle: u16) -> usize {
    waiting(state).iter().filter(|packet| packet.handle == handle).count()
}

fn store(handle: u16, octets: &[u8], taken: &[Waiting], profile: &Profile, pool: &mut [u8]) -> Waiting {
    let place = (0..profile.acl_count).find(|place| taken.iter().all(|packet| packet.place != *place));
    let place = place.expect("buffers in use are fewer than places");
    let start = usize::from(place) * place_octets(profile);
    pool[start..start + octets.len()].copy_from_slice(octets);
    Waiting { handle, len: octets.len() as u16, place }
}

/// Without the packets.
fn state_of(c: &Controller) -> State {
    State {
        masks: raw::Masks { event: c.event_mask, event_page2: c.event_mask_page2, le_event: c.le_event_mask },
        settings: settings(c),
        advertising: advertising(c),
        scanning: raw::Scanning {
            params: c.scan_params,
            enable: c.scan_enable,
            initiating: c.initiating.into(),
            initiator_filter: c.initiator_filter,
        },
        accept_list: raw::AcceptList { octets: filled(c.accept_list.as_flattened()), count: c.accept_list.len() },
        resolving_list: raw::ResolvingList { octets: filled(c.resolving_list.as_flattened()), count: c.resolving_list.len() },
        links: links(c),
        counters: raw::Counters {
            commands: c.commands,
            unknown_commands: c.unknown_commands,
            acl_packets: c.acl_packets,
            acl_dropped: c.acl_dropped,
        },
        recent: raw::Recent { octets: filled(c.recent.as_flattened()), count: c.recent.len() },
    }
}

fn settings(c: &Controller) -> raw::Settings {
    raw::Settings {
        random_address: c.random_address,
        address_resolution: c.address_resolution.into(),
        rpa_timeout: c.rpa_timeout,
        suggested_data_length: c.suggested_data_length,
        default_phy: c.default_phy,
        host_flow_control: c.host_flow_control,
        advertising_family: c.advertising_family,
        test: c.test,
        rf_path_compensation: c.rf_path_compensation,
    }
}

fn advertising(c: &Controller) -> raw::Advertising {
    raw::Advertising {
        params: c.advertising.params,
        data: filled(&c.advertising.data),
        data_len: c.advertising.data.len() as u8,
        scan_response: filled(&c.advertising.scan_response),
        scan_response_len: c.advertising.scan_response.len() as u8,
        enabled: c.advertising.enabled.into(),
    }
}

fn links(c: &Controller) -> raw::Links {
    raw::Links {
        connections: std::array::from_fn(|at| connection(c.connections.get(at).unwrap_or(&Connection::default()))),
        count: c.connections.len(),
        waiting: [Waiting { handle: 0, len: 0, place: 0 }; 32],
        waiting_count: 0,
        in_flight: c.acl_in_flight,
    }
}

fn connection(link: &Connection) -> raw::Connection {
    raw::Connection {
        handle: link.handle,
        interval: link.interval,
        latency: link.latency,
        timeout: link.timeout,
        tx_octets: link.tx_octets,
        tx_time: link.tx_time,
        auth_payload_timeout: link.auth_payload_timeout,
        tx_phy: link.tx_phy,
        rx_phy: link.rx_phy,
        terminating: link.terminating.unwrap_or(0),
        ltk_requested: link.ltk_requested.into(),
    }
}

/// The octets at the front of an array.
fn filled<const N: usize>(octets: &[u8]) -> [u8; N] {
    let mut array = [0; N];
    array[..octets.len()].copy_from_slice(octets);
    array
}
