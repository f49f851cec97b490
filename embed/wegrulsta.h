/* The bay radio's LE controller for C and C++, one call at a time: what the archives libcontroller.a (the calls that take a
 * state) and libcapi.a (HCI packets, the stream, AES) have; crates/controller_c and crates/capi_c say what each call gives. For
 * firmware; README.md beside this file shows the calls in the order in which a unit makes them.
 *
 * You keep a wegrulsta_state. A call takes it by value and gives the new one back in its answer, beside a number: 0, or
 * the number of the first question (below, and docs/REFUSALS.md) whose answer is "no". A refused call changes nothing:
 * the state that it gives is the one that it got, and pool and buffer are as they were. Every call is total: any numbers,
 * octets and lengths get an answer.
 *
 * What you owe:
 * - A pointer is not null, is aligned for its type, and is valid for its length until the call returns, also where the
 *   length is 0.
 * - What a call writes (pool, out, map, buffer) overlaps nothing else that is handed in.
 * - The structs are this header's: x86-64 System V, size_t of 8 octets. wegrulsta_layout.h asserts it.
 * Nothing else. Any octets are a state and a profile, also read back from flash, damaged or zeroed; question 3 decides
 * whether a state holds together. Compare states field by field: octets between fields are not kept. Nothing is kept
 * inside the archives, so two states can be used on two threads. */
#ifndef WEGRULSTA_H
#define WEGRULSTA_H

#include <stddef.h>
#include <stdint.h>
#ifndef __cplusplus
#include <stdbool.h>
#endif

#define WEGRULSTA_VERSION_MAJOR 3
#define WEGRULSTA_VERSION_MINOR 0
#define WEGRULSTA_VERSION_PATCH 0
#define WEGRULSTA_VERSION "3.0.0"

/* Refusal numbers; each has its question, and never comes for another cause. */
#define WEGRULSTA_ACCEPTED 0
#define WEGRULSTA_REFUSED_PROFILE 1      /* is the profile within its limits? */
#define WEGRULSTA_REFUSED_ROWS 2         /* are the rows equally long, at most 256, and all answers at most 2? */
#define WEGRULSTA_REFUSED_STATE 3        /* does the state hold together, under this profile? */
#define WEGRULSTA_REFUSED_POOL 4         /* has the pool acl_count places or more? */
#define WEGRULSTA_REFUSED_EVENT_BUFFER 5 /* has the event buffer 71 octets or more? */
#define WEGRULSTA_REFUSED_LINK 6         /* is the handle present, or one of sixteen places free? */
#define WEGRULSTA_REFUSED_TAKE_BUFFER 7  /* does the buffer hold all packets to be taken, end to end? */
#define WEGRULSTA_REFUSED_LENGTH 8       /* is what is to be written within its length field? */
#define WEGRULSTA_REFUSED_WRITE_BUFFER 9 /* does the buffer hold the packet to be written? */
#define WEGRULSTA_REFUSED_BIT 10         /* is the bit below 64? */

/* Sizes. */
#define WEGRULSTA_LINKS 16             /* links at once */
#define WEGRULSTA_ACCEPT_ENTRIES 32    /* entries of the accept list, of 7 octets */
#define WEGRULSTA_IDENTITIES 16        /* identities of the resolving list, of 8 octets */
#define WEGRULSTA_WAITING 32           /* packets that wait, of all links */
#define WEGRULSTA_LAST_ANSWERS 32      /* last answers that are remembered, of 3 octets */
#define WEGRULSTA_ROWS 256             /* rows of opcodes */
#define WEGRULSTA_NO_BIT 0xFFFF        /* the bit number of a row without one */
#define WEGRULSTA_EVENT_OCTETS 71      /* of events one call writes at most, so an event buffer has at least */
#define WEGRULSTA_BITMAP_OCTETS 64     /* the Supported_Commands bit map */
#define WEGRULSTA_LONGEST_PACKET 65540 /* the longest H4 packet: 5 octets and 65,535 */
/* A place of the pool, and a packet that is taken at most; and what a pool has at least. */
#define WEGRULSTA_PLACE(acl_len) ((size_t)(acl_len) + 5)
#define WEGRULSTA_POOL(acl_count, acl_len) ((size_t)(acl_count) * WEGRULSTA_PLACE(acl_len))

/* How a row answers its opcode. */
#define WEGRULSTA_MODELLED 0   /* the command is carried out */
#define WEGRULSTA_UNMODELLED 1 /* with 0x11, Unsupported Feature or Parameter Value */
#define WEGRULSTA_UNKNOWN 2    /* by Command Complete with 0x01, Unknown HCI Command */

/* The kind of what wegrulsta_read_command and wegrulsta_read_acl give. */
#define WEGRULSTA_WHOLE 0
#define WEGRULSTA_SHORT_HEADER 1
#define WEGRULSTA_ANOTHER_KIND 2
#define WEGRULSTA_SHORT_BODY 3

/* The kind of what wegrulsta_packet_length and wegrulsta_stream_feed give. */
#define WEGRULSTA_PACKETS 0
#define WEGRULSTA_MORE 1
#define WEGRULSTA_UNDEFINED 2
#define WEGRULSTA_NO_ROOM 3

/* Which events the host has enabled. */
typedef struct wegrulsta_masks {
    uint64_t event, event_page2, le_event;
} wegrulsta_masks;

/* What the host has set that no link and no list holds. A flag is one octet, here and below: 0 is no, any other octet yes. */
typedef struct wegrulsta_settings {
    uint8_t random_address[6];
    uint8_t address_resolution; /* a flag */
    uint16_t rpa_timeout;       /* in seconds */
    uint16_t suggested_data_length[2];
    uint8_t default_phy[3];
    uint8_t host_flow_control;
    uint8_t advertising_family;       /* 0 none, 1 legacy, 2 extended */
    uint8_t test;                     /* 0 none, 1 receiver, 2 transmitter */
    uint16_t rf_path_compensation[2]; /* in 0.1 dB */
} wegrulsta_settings;

/* Legacy advertising. */
typedef struct wegrulsta_advertising {
    uint8_t params[15], data[31], data_len, scan_response[31], scan_response_len;
    uint8_t enabled; /* a flag */
} wegrulsta_advertising;

/* Scanning and initiating. */
typedef struct wegrulsta_scanning {
    uint8_t params[7], enable[2];
    uint8_t initiating; /* a flag */
    uint8_t initiator_filter;
} wegrulsta_scanning;

/* Entries of seven octets: address type and address. */
typedef struct wegrulsta_accept_list {
    uint8_t octets[224];
    size_t count;
} wegrulsta_accept_list;

/* Identities of eight octets: address type, address, privacy mode. */
typedef struct wegrulsta_resolving_list {
    uint8_t octets[128];
    size_t count;
} wegrulsta_resolving_list;

/* A link. */
typedef struct wegrulsta_connection {
    uint16_t handle;
    uint16_t interval; /* in 1.25 ms */
    uint16_t latency;
    uint16_t timeout; /* in 10 ms */
    uint16_t tx_octets, tx_time;
    uint16_t auth_payload_timeout; /* in 10 ms */
    uint8_t tx_phy, rx_phy;
    uint8_t terminating;   /* the reason of a Disconnect that the peer has not acknowledged yet; 0 for none */
    uint8_t ltk_requested; /* a flag */
} wegrulsta_connection;

/* A waiting packet: its link, how many octets it has, and the place of the pool that holds them. */
typedef struct wegrulsta_waiting {
    uint16_t handle, len;
    uint8_t place;
} wegrulsta_waiting;

/* The links, the packets that wait in them, oldest first, and how many are in flight. */
typedef struct wegrulsta_links {
    wegrulsta_connection connections[WEGRULSTA_LINKS];
    size_t count;
    wegrulsta_waiting waiting[WEGRULSTA_WAITING];
    size_t waiting_count;
    uint16_t in_flight;
} wegrulsta_links;

/* Counters that a reset keeps. */
typedef struct wegrulsta_counters {
    uint64_t commands, unknown_commands, acl_packets, acl_dropped;
} wegrulsta_counters;

/* The last answers, oldest first, three octets each: opcode, low octet first, and status. */
typedef struct wegrulsta_recent {
    uint8_t octets[96];
    size_t count;
} wegrulsta_recent;

/* The state of a controller. */
typedef struct wegrulsta_state {
    wegrulsta_masks masks;
    wegrulsta_settings settings;
    wegrulsta_advertising advertising;
    wegrulsta_scanning scanning;
    wegrulsta_accept_list accept_list;
    wegrulsta_resolving_list resolving_list;
    wegrulsta_links links;
    wegrulsta_counters counters;
    wegrulsta_recent recent;
} wegrulsta_state;

/* What a controller reports about itself, and how large its buffers and lists are. The same for all calls of a unit. */
typedef struct wegrulsta_profile {
    uint8_t hci_version;
    uint16_t hci_subversion;
    uint8_t lmp_version;
    uint16_t company, lmp_subversion;
    uint8_t supported_commands[WEGRULSTA_BITMAP_OCTETS];
    uint8_t lmp_features[8];
    uint64_t le_features;
    uint8_t supported_states[8];
    uint16_t acl_len;            /* 27 to 1,019 */
    uint8_t acl_count;           /* 1 to 32 */
    uint8_t accept_list_size;    /* 0 to 32 */
    uint8_t resolving_list_size; /* 0 to 16 */
    int8_t adv_tx_power, tx_power_min, tx_power_max;
    uint16_t max_tx_octets, max_tx_time, max_adv_data_len;
    uint8_t adv_sets, num_command_packets;
} wegrulsta_profile;

#include "wegrulsta_calls.h"
#include "wegrulsta_layout.h"

#endif
