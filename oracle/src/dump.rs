//! A whole state as octets, in the form that `crates/replay/src` prints.
use crate::ble::controller::{Advertising, Connection, Controller};
use crate::octets::put_word;

pub fn put_state(c: &Controller, out: &mut Vec<u8>) {
    for mask in [c.event_mask, c.event_mask_page2, c.le_event_mask] {
        out.extend(mask.to_le_bytes());
    }
    put_settings(c, out);
    put_advertising(&c.advertising, out);
    out.extend(c.scan_params);
    out.extend(c.scan_enable);
    out.extend([u8::from(c.initiating), c.initiator_filter]);
    put_entries(&c.accept_list, out);
    put_entries(&c.resolving_list, out);
    out.push(c.connections.len() as u8);
    for link in &c.connections {
        put_connection(link, out);
    }
    put_word(out, c.acl_in_flight);
    for counter in [c.commands, c.unknown_commands, c.acl_packets, c.acl_dropped] {
        out.extend(counter.to_le_bytes());
    }
    put_entries(&c.recent, out);
}

fn put_settings(c: &Controller, out: &mut Vec<u8>) {
    out.extend(c.random_address);
    out.push(u8::from(c.address_resolution));
    put_word(out, c.rpa_timeout);
    put_words(&c.suggested_data_length, out);
    out.extend(c.default_phy);
    out.extend([c.host_flow_control, c.advertising_family, c.test]);
    put_words(&c.rf_path_compensation, out);
}

fn put_advertising(a: &Advertising, out: &mut Vec<u8>) {
    out.extend(a.params);
    for data in [&a.data, &a.scan_response] {
        out.push(data.len() as u8);
        out.extend(data);
    }
    out.push(u8::from(a.enabled));
}

fn put_connection(link: &Connection, out: &mut Vec<u8>) {
    put_words(
        &[link.handle, link.interval, link.latency, link.timeout, link.tx_octets, link.tx_time, link.auth_payload_timeout],
        out,
    );
    // the port's 0 is the source's None: no reason that a command may give is 0
    let terminating = link.terminating.unwrap_or(0);
    out.extend([link.tx_phy, link.rx_phy, terminating, u8::from(link.ltk_requested)]);
    out.push(link.tx.len() as u8);
    for packet in &link.tx {
        put_word(out, packet.len() as u16);
        out.extend(packet);
    }
}

fn put_words(words: &[u16], out: &mut Vec<u8>) {
    for word in words {
        put_word(out, *word);
    }
}

/// The count of entries, and these.
fn put_entries<const N: usize>(entries: &[[u8; N]], out: &mut Vec<u8>) {
    out.push(entries.len() as u8);
    for entry in entries {
        out.extend(entry);
    }
}
