//! What a state and its pool show, as the source has it.
use super::check::octets_of;
use super::raw::{self, Profile, State};
use crate::ble::controller::{Advertising, Connection, Controller};
use crate::questions::{place_octets, waiting};

/// The source's state of the port's, which holds together.
pub fn controller(state: &State, pool: &[u8], profile: &Profile) -> Controller {
    let State { masks, settings, scanning, accept_list, resolving_list, links, counters, recent, .. } = state;
    let connections = links.connections[..links.count].iter();
    Controller {
        event_mask: masks.event,
        event_mask_page2: masks.event_page2,
        le_event_mask: masks.le_event,
        random_address: settings.random_address,
        advertising: advertising(&state.advertising),
        scan_params: scanning.params,
        scan_enable: scanning.enable,
        initiating: scanning.initiating != 0,
        initiator_filter: scanning.initiator_filter,
        accept_list: accept_list.octets.as_chunks().0[..accept_list.count].to_vec(),
        resolving_list: resolving_list.octets.as_chunks().0[..resolving_list.count].to_vec(),
        address_resolution: settings.address_resolution != 0,
        rpa_timeout: settings.rpa_timeout,
        suggested_data_length: settings.suggested_data_length,
        default_phy: settings.default_phy,
        host_flow_control: settings.host_flow_control,
        connections: connections.map(|link| connection(link, state, pool, place_octets(profile))).collect(),
        advertising_family: settings.advertising_family,
        test: settings.test,
        rf_path_compensation: settings.rf_path_compensation,
        commands: counters.commands,
        unknown_commands: counters.unknown_commands,
        acl_packets: counters.acl_packets,
        acl_in_flight: links.in_flight,
        acl_dropped: counters.acl_dropped,
        recent: recent.octets.as_chunks().0[..recent.count].to_vec(),
    }
}

fn advertising(a: &raw::Advertising) -> Advertising {
    Advertising {
        params: a.params,
        data: a.data[..usize::from(a.data_len)].to_vec(),
        scan_response: a.scan_response[..usize::from(a.scan_response_len)].to_vec(),
        enabled: a.enabled != 0,
    }
}

/// A link with its packets, size being the octets of a place.
fn connection(link: &raw::Connection, state: &State, pool: &[u8], size: usize) -> Connection {
    let packets = waiting(state).iter().filter(|packet| packet.handle == link.handle);
    Connection {
        handle: link.handle,
        interval: link.interval,
        latency: link.latency,
        timeout: link.timeout,
        tx_octets: link.tx_octets,
        tx_time: link.tx_time,
        tx_phy: link.tx_phy,
        rx_phy: link.rx_phy,
        tx: packets.map(|packet| octets_of(packet, size, pool).unwrap_or_default().to_vec()).collect(),
        terminating: (link.terminating != 0).then_some(link.terminating),
        ltk_requested: link.ltk_requested != 0,
        auth_payload_timeout: link.auth_payload_timeout,
    }
}
