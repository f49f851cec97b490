/* The third part of wegrulsta.h, which includes it: asserts that this compiler lays the structs out as the archive has
 * them. Sizes, alignments and offsets are in octets; rust/src/layout.rs asserts the same numbers. */
#ifndef WEGRULSTA_LAYOUT_H
#define WEGRULSTA_LAYOUT_H

#if !defined(__x86_64__) || defined(_WIN32) || defined(__ILP32__)
#error "the archive is for x86-64 with the System V calling convention and 64-bit pointers"
#endif

#ifdef __cplusplus
#define WEGRULSTA_ASSERT(fact) static_assert(fact, #fact)
#define WEGRULSTA_ALIGNMENT(type) alignof(type)
#else
#define WEGRULSTA_ASSERT(fact) _Static_assert(fact, #fact)
#define WEGRULSTA_ALIGNMENT(type) _Alignof(type)
#endif

#define WEGRULSTA_SIZE(type, size, alignment) \
    WEGRULSTA_ASSERT(sizeof(wegrulsta_##type) == (size) && WEGRULSTA_ALIGNMENT(wegrulsta_##type) == (alignment))
#define WEGRULSTA_AT(type, field, offset) WEGRULSTA_ASSERT(offsetof(wegrulsta_##type, field) == (offset))

WEGRULSTA_ASSERT(sizeof(size_t) == 8 && WEGRULSTA_ALIGNMENT(size_t) == 8);
WEGRULSTA_ASSERT(sizeof(bool) == 1);

WEGRULSTA_SIZE(masks, 24, 8);
WEGRULSTA_AT(masks, event, 0);
WEGRULSTA_AT(masks, event_page2, 8);
WEGRULSTA_AT(masks, le_event, 16);

WEGRULSTA_SIZE(settings, 24, 2);
WEGRULSTA_AT(settings, random_address, 0);
WEGRULSTA_AT(settings, address_resolution, 6);
WEGRULSTA_AT(settings, rpa_timeout, 8);
WEGRULSTA_AT(settings, suggested_data_length, 10);
WEGRULSTA_AT(settings, default_phy, 14);
WEGRULSTA_AT(settings, host_flow_control, 17);
WEGRULSTA_AT(settings, advertising_family, 18);
WEGRULSTA_AT(settings, test, 19);
WEGRULSTA_AT(settings, rf_path_compensation, 20);

WEGRULSTA_SIZE(advertising, 80, 1);
WEGRULSTA_AT(advertising, params, 0);
WEGRULSTA_AT(advertising, data, 15);
WEGRULSTA_AT(advertising, data_len, 46);
WEGRULSTA_AT(advertising, scan_response, 47);
WEGRULSTA_AT(advertising, scan_response_len, 78);
WEGRULSTA_AT(advertising, enabled, 79);

WEGRULSTA_SIZE(scanning, 11, 1);
WEGRULSTA_AT(scanning, params, 0);
WEGRULSTA_AT(scanning, enable, 7);
WEGRULSTA_AT(scanning, initiating, 9);
WEGRULSTA_AT(scanning, initiator_filter, 10);

WEGRULSTA_SIZE(accept_list, 232, 8);
WEGRULSTA_AT(accept_list, octets, 0);
WEGRULSTA_AT(accept_list, count, 224);

WEGRULSTA_SIZE(resolving_list, 136, 8);
WEGRULSTA_AT(resolving_list, octets, 0);
WEGRULSTA_AT(resolving_list, count, 128);

WEGRULSTA_SIZE(connection, 18, 2);
WEGRULSTA_AT(connection, handle, 0);
WEGRULSTA_AT(connection, interval, 2);
WEGRULSTA_AT(connection, latency, 4);
WEGRULSTA_AT(connection, timeout, 6);
WEGRULSTA_AT(connection, tx_octets, 8);
WEGRULSTA_AT(connection, tx_time, 10);
WEGRULSTA_AT(connection, auth_payload_timeout, 12);
WEGRULSTA_AT(connection, tx_phy, 14);
WEGRULSTA_AT(connection, rx_phy, 15);
WEGRULSTA_AT(connection, terminating, 16);
WEGRULSTA_AT(connection, ltk_requested, 17);

WEGRULSTA_SIZE(waiting, 6, 2);
WEGRULSTA_AT(waiting, handle, 0);
WEGRULSTA_AT(waiting, len, 2);
WEGRULSTA_AT(waiting, place, 4);

WEGRULSTA_SIZE(links, 504, 8);
WEGRULSTA_AT(links, connections, 0);
WEGRULSTA_AT(links, count, 288);
WEGRULSTA_AT(links, waiting, 296);
WEGRULSTA_AT(links, waiting_count, 488);
WEGRULSTA_AT(links, in_flight, 496);

WEGRULSTA_SIZE(counters, 32, 8);
WEGRULSTA_AT(counters, commands, 0);
WEGRULSTA_AT(counters, unknown_commands, 8);
WEGRULSTA_AT(counters, acl_packets, 16);
WEGRULSTA_AT(counters, acl_dropped, 24);

WEGRULSTA_SIZE(recent, 104, 8);
WEGRULSTA_AT(recent, octets, 0);
WEGRULSTA_AT(recent, count, 96);

WEGRULSTA_SIZE(state, 1152, 8);
WEGRULSTA_AT(state, masks, 0);
WEGRULSTA_AT(state, settings, 24);
WEGRULSTA_AT(state, advertising, 48);
WEGRULSTA_AT(state, scanning, 128);
WEGRULSTA_AT(state, accept_list, 144);
WEGRULSTA_AT(state, resolving_list, 376);
WEGRULSTA_AT(state, links, 512);
WEGRULSTA_AT(state, counters, 1016);
WEGRULSTA_AT(state, recent, 1048);

WEGRULSTA_SIZE(profile, 120, 8);
WEGRULSTA_AT(profile, hci_version, 0);
WEGRULSTA_AT(profile, hci_subversion, 2);
WEGRULSTA_AT(profile, lmp_version, 4);
WEGRULSTA_AT(profile, company, 6);
WEGRULSTA_AT(profile, lmp_subversion, 8);
WEGRULSTA_AT(profile, supported_commands, 10);
WEGRULSTA_AT(profile, lmp_features, 74);
WEGRULSTA_AT(profile, le_features, 88);
WEGRULSTA_AT(profile, supported_states, 96);
WEGRULSTA_AT(profile, acl_len, 104);
WEGRULSTA_AT(profile, acl_count, 106);
WEGRULSTA_AT(profile, accept_list_size, 107);
WEGRULSTA_AT(profile, resolving_list_size, 108);
WEGRULSTA_AT(profile, adv_tx_power, 109);
WEGRULSTA_AT(profile, tx_power_min, 110);
WEGRULSTA_AT(profile, tx_power_max, 111);
WEGRULSTA_AT(profile, max_tx_octets, 112);
WEGRULSTA_AT(profile, max_tx_time, 114);
WEGRULSTA_AT(profile, max_adv_data_len, 116);
WEGRULSTA_AT(profile, adv_sets, 118);
WEGRULSTA_AT(profile, num_command_packets, 119);

WEGRULSTA_SIZE(told, 1168, 8);
WEGRULSTA_AT(told, state, 0);
WEGRULSTA_AT(told, written, 1152);
WEGRULSTA_AT(told, number, 1160);

WEGRULSTA_SIZE(changed, 1160, 8);
WEGRULSTA_AT(changed, state, 0);
WEGRULSTA_AT(changed, number, 1152);

WEGRULSTA_SIZE(took, 1176, 8);
WEGRULSTA_AT(took, state, 0);
WEGRULSTA_AT(took, count, 1152);
WEGRULSTA_AT(took, written, 1160);
WEGRULSTA_AT(took, number, 1168);

WEGRULSTA_SIZE(connected, 2, 1);
WEGRULSTA_AT(connected, number, 0);
WEGRULSTA_AT(connected, connected, 1);

WEGRULSTA_SIZE(terminates, 2, 1);
WEGRULSTA_AT(terminates, number, 0);
WEGRULSTA_AT(terminates, reason, 1);

WEGRULSTA_SIZE(found_handle, 4, 2);
WEGRULSTA_AT(found_handle, number, 0);
WEGRULSTA_AT(found_handle, handle, 2);

WEGRULSTA_SIZE(in_use, 16, 8);
WEGRULSTA_AT(in_use, number, 0);
WEGRULSTA_AT(in_use, count, 8);

WEGRULSTA_SIZE(bitmap, 65, 1);
WEGRULSTA_AT(bitmap, number, 0);
WEGRULSTA_AT(bitmap, map, 1);

WEGRULSTA_SIZE(wrote, 16, 8);
WEGRULSTA_AT(wrote, number, 0);
WEGRULSTA_AT(wrote, written, 8);

WEGRULSTA_SIZE(has, 2, 1);
WEGRULSTA_AT(has, number, 0);
WEGRULSTA_AT(has, has, 1);

WEGRULSTA_SIZE(command, 4, 2);
WEGRULSTA_AT(command, kind, 0);
WEGRULSTA_AT(command, len, 1);
WEGRULSTA_AT(command, opcode, 2);

WEGRULSTA_SIZE(acl, 8, 2);
WEGRULSTA_AT(acl, kind, 0);
WEGRULSTA_AT(acl, boundary, 1);
WEGRULSTA_AT(acl, broadcast, 2);
WEGRULSTA_AT(acl, handle, 4);
WEGRULSTA_AT(acl, len, 6);

WEGRULSTA_SIZE(length, 16, 8);
WEGRULSTA_AT(length, kind, 0);
WEGRULSTA_AT(length, indicator, 1);
WEGRULSTA_AT(length, len, 8);

WEGRULSTA_SIZE(stream, 16, 8);
WEGRULSTA_AT(stream, ready, 0);
WEGRULSTA_AT(stream, held, 8);

WEGRULSTA_SIZE(fed, 24, 8);
WEGRULSTA_AT(fed, stream, 0);
WEGRULSTA_AT(fed, kind, 16);
WEGRULSTA_AT(fed, indicator, 17);

#undef WEGRULSTA_AT
#undef WEGRULSTA_SIZE
#undef WEGRULSTA_ALIGNMENT
#undef WEGRULSTA_ASSERT

#endif
