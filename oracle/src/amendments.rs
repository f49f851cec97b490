//! Where the port departs from the source because the customer asked for it, by the number of the request (document 02). The
//! source itself is compiled unchanged: an amendment stands before it, and decides what reaches it.
use crate::ble::controller::Controller;
use crate::ble::hci::{Acl, Command};

/// E2: "A packet with nonzero broadcast bits or boundary 3 is counted as dropped. That test comes after the header parses and
/// before the handle is looked up." Such a packet never reaches the source; whether this is one.
pub fn dropped_by_flags(c: &mut Controller, packet: &[u8]) -> bool {
    if Acl::parse(packet).is_none() || flags_served(packet) {
        return false;
    }
    c.acl_dropped = c.acl_dropped.wrapping_add(1);
    true
}

fn flags_served(packet: &[u8]) -> bool {
    let word = u16::from_le_bytes([packet[1], packet[2]]);
    let (boundary, broadcast) = (word >> 12 & 0b11, word >> 14);
    broadcast == 0 && boundary != 3
}

/// E4: LE Create Connection with a field that Core 7.8.12 does not allow "gives status 0x12, tested in this order after 'already
/// initiating' and before the connection parameters". The source gets a copy whose least connection interval is 0, which it
/// refuses so, at that place: form, family and initiating stay its own to test, and what it counts and remembers.
pub fn with_refused_interval(packet: &[u8]) -> Option<Vec<u8>> {
    let parameters = match Command::parse(packet) {
        Some(command) if command.opcode == 0x200D && command.params.len() == 25 => command.params,
        _ => return None,
    };
    if create_connection_allowed(parameters) {
        return None;
    }
    let mut copy = packet.to_vec();
    copy[4 + 13..4 + 15].fill(0);
    Some(copy)
}

/// "Core gives 0x200D's scan interval and window as 0x0004 to 0x4000, window at most interval. Filter is 0 or 1, own address
/// type at most 3, peer address type at most 3 where filter is 0."
fn create_connection_allowed(p: &[u8]) -> bool {
    let interval = u16::from_le_bytes([p[0], p[1]]);
    let window = u16::from_le_bytes([p[2], p[3]]);
    let (filter, peer_type, own_type) = (p[4], p[5], p[12]);
    let times = (4..=0x4000).contains(&interval) && (4..=0x4000).contains(&window) && window <= interval;
    times && own_type <= 3 && (filter == 1 || filter == 0 && peer_type <= 3)
}

#[cfg(test)]
mod tests {
    use super::*;
    use crate::ble::profile::BleProfile;
    use crate::generate::command_packet;
    use crate::lines::bench_profile;

    #[test]
    fn flags() {
        for high in 0..=15u8 {
            let mut c = Controller::default();
            let dropped = dropped_by_flags(&mut c, &[2, 1, high << 4, 0, 0]);
            assert_eq!(dropped, ![0, 1, 2].contains(&high), "{high}");
            assert_eq!(c.acl_dropped, u64::from(dropped));
        }
    }

    /// What docs/DIFFERENCES.md says of the source by itself: it queues such a packet.
    #[test]
    fn the_source_takes_any_flags() {
        BleProfile::set(bench_profile());
        for high in [3, 4, 8, 12, 15u8] {
            let mut c = Controller::default();
            c.open_connection(1, 24, 0, 42);
            let events = c.on_packet([0; 6], &[2, 1, high << 4, 0, 0], &mut |octets| octets.fill(0));
            assert_eq!((events.len(), c.acl_packets, c.acl_dropped), (0, 1, 0), "{high}");
        }
    }

    #[test]
    fn other_packets_reach_the_source() {
        let mut c = Controller::default();
        for packet in [&[][..], &[2], &[2, 1, 0xF0, 0], &[2, 1, 0xF0, 1, 0], &[1, 1, 0xF0, 0, 0]] {
            assert!(!dropped_by_flags(&mut c, packet));
        }
        assert_eq!(c.acl_dropped, 0);
    }

    /// LE Create Connection with these scan interval, window, filter policy, peer and own address type.
    fn create(interval: u16, window: u16, filter: u8, peer_type: u8, own_type: u8) -> Vec<u8> {
        let mut p = [interval.to_le_bytes(), window.to_le_bytes(), [filter, peer_type]].concat();
        p.extend([0x11, 0x22, 0x33, 0x44, 0x55, 0x66, own_type, 24, 0, 24, 0, 0, 0, 42, 0, 0, 0, 0, 0]);
        command_packet(0x200D, &p)
    }

    const ALLOWED: [(u16, u16, u8, u8, u8); 7] = [
        (4, 4, 0, 0, 0),
        (5, 4, 0, 3, 3),
        (0x4000, 0x4000, 0, 3, 0),
        (0x4000, 4, 1, 0, 3),
        (0x4000, 0x3FFF, 1, 3, 0),
        // with filter policy 1 the accept list names the peers, and the peer's type is free
        (16, 16, 1, 4, 0),
        (16, 16, 1, 255, 0),
    ];
    const REFUSED: [(u16, u16, u8, u8, u8); 12] = [
        (3, 3, 0, 0, 0),
        (0, 4, 0, 0, 0),
        (0x4001, 16, 0, 0, 0),
        (0xFFFF, 16, 0, 0, 0),
        (16, 3, 0, 0, 0),
        (16, 0, 0, 0, 0),
        (0x4000, 0x4001, 0, 0, 0),
        (16, 17, 0, 0, 0),
        (16, 16, 2, 0, 0),
        (16, 16, 255, 0, 0),
        (16, 16, 1, 0, 4),
        (16, 16, 0, 4, 0),
    ];

    #[test]
    fn scan_fields() {
        for (interval, window, filter, peer_type, own_type) in ALLOWED {
            assert_eq!(with_refused_interval(&create(interval, window, filter, peer_type, own_type)), None);
        }
        for (interval, window, filter, peer_type, own_type) in REFUSED {
            let packet = create(interval, window, filter, peer_type, own_type);
            let copy = with_refused_interval(&packet).expect("one of the fields is not allowed");
            let changed: Vec<usize> = (0..packet.len()).filter(|&at| packet[at] != copy[at]).collect();
            assert_eq!((copy.len(), changed), (packet.len(), vec![4 + 13]));
        }
        // another size or opcode is the source's to answer
        assert_eq!(with_refused_interval(&command_packet(0x200D, &[0; 24])), None);
        assert_eq!(with_refused_interval(&command_packet(0x200C, &[0; 25])), None);
    }

    /// What docs/DIFFERENCES.md says of the source by itself: it takes any scan settings, and refuses the copy.
    #[test]
    fn the_source_takes_any_scan_fields() {
        BleProfile::set(bench_profile());
        for (interval, window, filter, peer_type, own_type) in REFUSED {
            let packet = create(interval, window, filter, peer_type, own_type);
            let copy = with_refused_interval(&packet).expect("one of the fields is not allowed");
            for (packet, status) in [(packet, 0), (copy, 0x12)] {
                let mut c = Controller::default();
                let events = c.on_packet([0; 6], &packet, &mut |octets| octets.fill(0));
                assert_eq!(events[0][..4], [0x04, 0x0F, 0x04, status]);
                assert_eq!(c.initiating, status == 0);
            }
        }
    }
}
