/* Whether two states are the same, field by field: octets between fields say nothing. For any_octets; firmware that
 * compares states compares them so. */
#include "any_octets.h"

#include <string.h>

#define SAME(field) (a->field == b->field)
#define SAME_OCTETS(field) (memcmp(a->field, b->field, sizeof a->field) == 0)

static bool same_settings(const wegrulsta_settings *a, const wegrulsta_settings *b) {
    return SAME_OCTETS(random_address) && SAME(address_resolution) && SAME(rpa_timeout) && SAME_OCTETS(suggested_data_length) &&
           SAME_OCTETS(default_phy) && SAME(host_flow_control) && SAME(advertising_family) && SAME(test) &&
           SAME_OCTETS(rf_path_compensation);
}

static bool same_advertising(const wegrulsta_advertising *a, const wegrulsta_advertising *b) {
    return SAME_OCTETS(params) && SAME_OCTETS(data) && SAME(data_len) && SAME_OCTETS(scan_response) &&
           SAME(scan_response_len) && SAME(enabled);
}

static bool same_scanning(const wegrulsta_scanning *a, const wegrulsta_scanning *b) {
    return SAME_OCTETS(params) && SAME_OCTETS(enable) && SAME(initiating) && SAME(initiator_filter);
}

static bool same_connection(const wegrulsta_connection *a, const wegrulsta_connection *b) {
    return SAME(handle) && SAME(interval) && SAME(latency) && SAME(timeout) && SAME(tx_octets) && SAME(tx_time) &&
           SAME(auth_payload_timeout) && SAME(tx_phy) && SAME(rx_phy) && SAME(terminating) && SAME(ltk_requested);
}

static bool same_waiting(const wegrulsta_waiting *a, const wegrulsta_waiting *b) {
    return SAME(handle) && SAME(len) && SAME(place);
}

static bool same_links(const wegrulsta_links *a, const wegrulsta_links *b) {
    for (size_t i = 0; i < WEGRULSTA_LINKS; i++) {
        if (!same_connection(&a->connections[i], &b->connections[i])) {
            return false;
        }
    }
    for (size_t i = 0; i < WEGRULSTA_WAITING; i++) {
        if (!same_waiting(&a->waiting[i], &b->waiting[i])) {
            return false;
        }
    }
    return SAME(count) && SAME(waiting_count) && SAME(in_flight);
}

bool same_state(const wegrulsta_state *a, const wegrulsta_state *b) {
    return SAME(masks.event) && SAME(masks.event_page2) && SAME(masks.le_event) && same_settings(&a->settings, &b->settings) &&
           same_advertising(&a->advertising, &b->advertising) && same_scanning(&a->scanning, &b->scanning) &&
           SAME_OCTETS(accept_list.octets) && SAME(accept_list.count) && SAME_OCTETS(resolving_list.octets) &&
           SAME(resolving_list.count) && same_links(&a->links, &b->links) && SAME(counters.commands) &&
           SAME(counters.unknown_commands) && SAME(counters.acl_packets) && SAME(counters.acl_dropped) &&
           SAME_OCTETS(recent.octets) && SAME(recent.count);
}
