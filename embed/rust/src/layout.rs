//! Asserts that the structs lie in memory as the archive has them: size, alignment, and where each field stands, in
//! octets. The numbers are those of `wegrulsta_layout.h`; a build with others stops here.
use crate::raw::*;
use core::mem::{align_of, offset_of, size_of};

macro_rules! laid_out {
    ($kind:ty, $size:literal, $alignment:literal, $($field:ident $offset:literal),+) => {
        const _: () = {
            assert!(size_of::<$kind>() == $size);
            assert!(align_of::<$kind>() == $alignment);
            $(assert!(offset_of!($kind, $field) == $offset);)+
        };
    };
}

const _: () = assert!(cfg!(all(target_arch = "x86_64", not(windows))) && size_of::<usize>() == 8);

laid_out!(Masks, 24, 8, event 0, event_page2 8, le_event 16);
laid_out!(Settings, 24, 2, random_address 0, address_resolution 6, rpa_timeout 8, suggested_data_length 10,
    default_phy 14, host_flow_control 17, advertising_family 18, test 19, rf_path_compensation 20);
laid_out!(Advertising, 80, 1, params 0, data 15, data_len 46, scan_response 47, scan_response_len 78, enabled 79);
laid_out!(Scanning, 11, 1, params 0, enable 7, initiating 9, initiator_filter 10);
laid_out!(AcceptList, 232, 8, octets 0, count 224);
laid_out!(ResolvingList, 136, 8, octets 0, count 128);
laid_out!(Connection, 18, 2, handle 0, interval 2, latency 4, timeout 6, tx_octets 8, tx_time 10,
    auth_payload_timeout 12, tx_phy 14, rx_phy 15, terminating 16, ltk_requested 17);
laid_out!(Waiting, 6, 2, handle 0, len 2, place 4);
laid_out!(Links, 504, 8, connections 0, count 288, waiting 296, waiting_count 488, in_flight 496);
laid_out!(Counters, 32, 8, commands 0, unknown_commands 8, acl_packets 16, acl_dropped 24);
laid_out!(Recent, 104, 8, octets 0, count 96);
laid_out!(State, 1152, 8, masks 0, settings 24, advertising 48, scanning 128, accept_list 144, resolving_list 376,
    links 512, counters 1016, recent 1048);
laid_out!(Profile, 120, 8, hci_version 0, hci_subversion 2, lmp_version 4, company 6, lmp_subversion 8,
    supported_commands 10, lmp_features 74, le_features 88, supported_states 96, acl_len 104, acl_count 106,
    accept_list_size 107, resolving_list_size 108, adv_tx_power 109, tx_power_min 110, tx_power_max 111,
    max_tx_octets 112, max_tx_time 114, max_adv_data_len 116, adv_sets 118, num_command_packets 119);
laid_out!(Told, 1168, 8, state 0, written 1152, number 1160);
laid_out!(Changed, 1160, 8, state 0, number 1152);
laid_out!(Took, 1176, 8, state 0, count 1152, written 1160, number 1168);
laid_out!(Connected, 2, 1, number 0, connected 1);
laid_out!(Terminating, 2, 1, number 0, reason 1);
laid_out!(FreeHandle, 4, 2, number 0, handle 2);
laid_out!(InUse, 16, 8, number 0, count 8);
laid_out!(Bitmap, 65, 1, number 0, map 1);
laid_out!(Wrote, 16, 8, number 0, written 8);
laid_out!(MaskHas, 2, 1, number 0, has 1);
laid_out!(ReadCommand, 4, 2, kind 0, len 1, opcode 2);
laid_out!(ReadAcl, 8, 2, kind 0, boundary 1, broadcast 2, handle 4, len 6);
laid_out!(PacketLength, 16, 8, kind 0, indicator 1, len 8);
laid_out!(Stream, 16, 8, ready 0, held 8);
laid_out!(StreamFed, 24, 8, stream 0, kind 16, indicator 17);
