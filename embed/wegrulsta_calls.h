/* The second part of wegrulsta.h, which includes it: what the calls answer, and the calls, each with the questions that
 * it asks, in their order. A slice is a pointer and a length. For firmware. */
#ifndef WEGRULSTA_CALLS_H
#define WEGRULSTA_CALLS_H

/* A call that may tell the host something: the state after it, how many octets of events stand at the front of out, and
 * its number. */
typedef struct wegrulsta_told {
    wegrulsta_state state;
    size_t written;
    uint8_t number;
} wegrulsta_told;

/* A call without a buffer. */
typedef struct wegrulsta_changed {
    wegrulsta_state state;
    uint8_t number;
} wegrulsta_changed;

/* A take: also how many packets stand at the front of out. */
typedef struct wegrulsta_took {
    wegrulsta_state state;
    size_t count;
    size_t written;
    uint8_t number;
} wegrulsta_took;

/* The queries. Where the number is not 0, the other field is 0. */
typedef struct wegrulsta_connected {
    uint8_t number;
    bool connected;
} wegrulsta_connected;

typedef struct wegrulsta_terminates {
    uint8_t number;
    uint8_t reason;
} wegrulsta_terminates;

typedef struct wegrulsta_found_handle {
    uint8_t number;
    uint16_t handle;
} wegrulsta_found_handle;

typedef struct wegrulsta_in_use {
    uint8_t number;
    size_t count;
} wegrulsta_in_use;

typedef struct wegrulsta_bitmap {
    uint8_t number;
    uint8_t map[WEGRULSTA_BITMAP_OCTETS];
} wegrulsta_bitmap;

/* A writer: 0, 8 or 9, and how many octets it wrote to the front of out. */
typedef struct wegrulsta_wrote {
    uint8_t number;
    size_t written;
} wegrulsta_wrote;

/* 0 or 10, and whether the mask has the bit. */
typedef struct wegrulsta_has {
    uint8_t number;
    bool has;
} wegrulsta_has;

/* A packet read as a command: WEGRULSTA_WHOLE, or why it is none; then opcode and len are 0. The parameters are the len
 * octets from the fifth. */
typedef struct wegrulsta_command {
    uint8_t kind;
    uint8_t len;
    uint16_t opcode;
} wegrulsta_command;

/* A packet read as ACL data: WEGRULSTA_WHOLE, or why it is none; then the other fields are 0. The flags are bits 12 and 13
 * (boundary) and bits 14 and 15 (broadcast) of the packet's word; wegrulsta_packet drops data with broadcast 1 to 3 or
 * boundary 3. The data are the len octets from the sixth. */
typedef struct wegrulsta_acl {
    uint8_t kind;
    uint8_t boundary;
    uint8_t broadcast;
    uint16_t handle;
    uint16_t len;
} wegrulsta_acl;

/* The packet at the front of some octets: WEGRULSTA_PACKETS with its len, WEGRULSTA_MORE, or WEGRULSTA_UNDEFINED with the
 * indicator. */
typedef struct wegrulsta_length {
    uint8_t kind;
    uint8_t indicator;
    size_t len;
} wegrulsta_length;

/* A stream over a buffer that you keep: its first `ready` octets are the packets of the last feed, the next `held` wait
 * for their rest. */
typedef struct wegrulsta_stream {
    size_t ready;
    size_t held;
} wegrulsta_stream;

/* A feed: WEGRULSTA_PACKETS; WEGRULSTA_UNDEFINED, framing is lost for good at the indicator; WEGRULSTA_NO_ROOM, nothing
 * has changed. */
typedef struct wegrulsta_fed {
    wegrulsta_stream stream;
    uint8_t kind;
    uint8_t indicator;
} wegrulsta_fed;

#ifdef __cplusplus
extern "C" {
#endif

/* ---- The state, packets of the host, packets for the air. */

/* The state that a unit starts with. No question. */
wegrulsta_state wegrulsta_start(void);

/* One whole packet of the host, of any kind: a command is answered, data is queued in the pool or dropped. The rows say
 * which opcodes there are; address is the public one, random is what LE Rand answers with. Questions 1, 2, 3, 4, 5. */
wegrulsta_told wegrulsta_packet(wegrulsta_profile profile, const uint16_t *opcodes, size_t opcodes_len, const uint8_t *answers,
                                size_t answers_len, const uint16_t *bits, size_t bits_len, wegrulsta_state s, uint8_t *pool,
                                size_t pool_len, const uint8_t address[6], uint64_t random, const uint8_t *packet,
                                size_t packet_len, uint8_t *out, size_t out_len);

/* Takes up to max packets of a link, oldest first, end to end to the front of out; they are in flight then. Questions 1,
 * 3, 4, 7. */
wegrulsta_took wegrulsta_take(wegrulsta_profile profile, wegrulsta_state s, const uint8_t *pool, size_t pool_len,
                              uint16_t handle, size_t max, uint8_t *out, size_t out_len);

/* ---- What the air side tells. */

/* A link opened, and the host is told nothing of it; a link with the same handle ends first. Questions 1, 3, 6. */
wegrulsta_changed wegrulsta_open(wegrulsta_profile profile, wegrulsta_state s, uint16_t handle, uint16_t interval,
                                 uint16_t latency, uint16_t timeout);

/* A central's request to connect was accepted: advertising ends, a link opens. A peer_type of 0 is a public address, any
 * other a random one. Questions 1, 3, 5, 6. */
wegrulsta_told wegrulsta_accept(wegrulsta_profile profile, wegrulsta_state s, uint16_t handle, uint8_t peer_type,
                                const uint8_t peer[6], uint16_t interval, uint16_t latency, uint16_t timeout, uint8_t sca,
                                uint8_t *out, size_t out_len);

/* The central applied a connection update. Questions 1, 3, 5. */
wegrulsta_told wegrulsta_update(wegrulsta_profile profile, wegrulsta_state s, uint16_t handle, uint16_t interval,
                                uint16_t latency, uint16_t timeout, uint8_t *out, size_t out_len);

/* A central starts encryption, and the host is asked for the key. Questions 1, 3, 5. */
wegrulsta_told wegrulsta_request_key(wegrulsta_profile profile, wegrulsta_state s, uint16_t handle, const uint8_t random[8],
                                     uint16_t ediv, uint8_t *out, size_t out_len);

/* So many packets of a link that were taken went out: their buffers are free, and the host hears so. Questions 1, 3, 5. */
wegrulsta_told wegrulsta_completed(wegrulsta_profile profile, wegrulsta_state s, uint16_t handle, uint16_t count, uint8_t *out,
                                   size_t out_len);

/* So many packets that were taken are gone with their link: make it directly after the call that ended the link.
 * Questions 1, 3. */
wegrulsta_changed wegrulsta_drop(wegrulsta_profile profile, wegrulsta_state s, uint16_t count);

/* The peer ended the link, or it was lost, for this reason. Questions 1, 3, 5. */
wegrulsta_told wegrulsta_remote_disconnect(wegrulsta_profile profile, wegrulsta_state s, uint16_t handle, uint8_t reason,
                                           uint8_t *out, size_t out_len);

/* The peer acknowledged the host's Disconnect. Questions 1, 3, 5. */
wegrulsta_told wegrulsta_complete_disconnect(wegrulsta_profile profile, wegrulsta_state s, uint16_t handle, uint8_t *out,
                                             size_t out_len);

/* High duty cycle directed advertising ended unanswered. Questions 1, 3, 5. */
wegrulsta_told wegrulsta_advertising_timeout(wegrulsta_profile profile, wegrulsta_state s, uint8_t *out, size_t out_len);

/* ---- What may be asked. */

/* Whether a link has this handle. Questions 1, 3. */
wegrulsta_connected wegrulsta_has_connection(wegrulsta_profile profile, wegrulsta_state s, uint16_t handle);

/* The reason of the host's Disconnect of this link, while the peer has not acknowledged it; 0 where there is none.
 * Questions 1, 3. */
wegrulsta_terminates wegrulsta_terminating(wegrulsta_profile profile, wegrulsta_state s, uint16_t handle);

/* The lowest handle from 1 that no link has. Questions 1, 3. */
wegrulsta_found_handle wegrulsta_free_handle(wegrulsta_profile profile, wegrulsta_state s);

/* How many buffers are in use: packets that wait, and those in flight. Questions 1, 3. */
wegrulsta_in_use wegrulsta_buffers_in_use(wegrulsta_profile profile, wegrulsta_state s);

/* The Supported_Commands bit map of the rows that are not unknown; for the profile. Question 2. */
wegrulsta_bitmap wegrulsta_row_bitmap(const uint16_t *opcodes, size_t opcodes_len, const uint8_t *answers, size_t answers_len,
                                      const uint16_t *bits, size_t bits_len);

/* ---- A stream of octets cut into packets (H4). No questions. */

/* How many octets the packet at the front takes, its indicator counted. */
wegrulsta_length wegrulsta_packet_length(const uint8_t *bytes, size_t bytes_len);

/* A stream to which nothing was fed. */
wegrulsta_stream wegrulsta_stream_start(void);

/* Moves the octets that wait to the front of the buffer, appends bytes, and says which of them are whole packets. */
wegrulsta_fed wegrulsta_stream_feed(wegrulsta_stream stream, uint8_t *buffer, size_t buffer_len, const uint8_t *bytes,
                                    size_t bytes_len);

/* How many octets the packet of the last feed has that starts at this index of the buffer; 0 past the last one. */
size_t wegrulsta_stream_packet(wegrulsta_stream stream, const uint8_t *buffer, size_t buffer_len, size_t at);

/* ---- HCI packets by themselves. The writers ask questions 8 and 9, in this order. */

/* Writes an event. */
wegrulsta_wrote wegrulsta_write_event(uint8_t code, const uint8_t *params, size_t params_len, uint8_t *out, size_t out_len);

/* Writes ACL data, for instance what came from the air: the handle's low 12 bits, the boundary flag above them. */
wegrulsta_wrote wegrulsta_write_acl(uint16_t handle, uint8_t boundary, const uint8_t *load, size_t load_len, uint8_t *out,
                                    size_t out_len);

/* Writes Command Complete. */
wegrulsta_wrote wegrulsta_write_command_complete(uint8_t num, uint16_t op, const uint8_t *return_params,
                                                 size_t return_params_len, uint8_t *out, size_t out_len);

/* Writes Command Status; never refused by 8. */
wegrulsta_wrote wegrulsta_write_command_status(uint8_t num, uint8_t status, uint16_t op, uint8_t *out, size_t out_len);

/* Writes Number Of Completed Packets, of pairs of a handle and a count; what the longer slice has more is no pair. */
wegrulsta_wrote wegrulsta_write_completed_packets(const uint16_t *handles, size_t handles_len, const uint16_t *counts,
                                                  size_t counts_len, uint8_t *out, size_t out_len);

/* Writes an LE Meta event. */
wegrulsta_wrote wegrulsta_write_le_meta(uint8_t subevent, const uint8_t *params, size_t params_len, uint8_t *out,
                                        size_t out_len);

/* Reads a packet as a command; octets past its length are ignored. */
wegrulsta_command wegrulsta_read_command(const uint8_t *packet, size_t packet_len);

/* Reads a packet as ACL data; octets past its length are ignored. */
wegrulsta_acl wegrulsta_read_acl(const uint8_t *packet, size_t packet_len);

/* The opcode of a group and a command in it. */
uint16_t wegrulsta_opcode(uint16_t ogf, uint16_t ocf);

/* Whether Command Status acknowledges a command. */
bool wegrulsta_is_async(uint16_t op);

/* Whether a mask has a bit. Question 10. */
wegrulsta_has wegrulsta_mask_has(uint64_t mask, uint32_t bit);

/* Sets a bit of a map; past its end nothing changes. */
void wegrulsta_set_bit(uint8_t *map, size_t map_len, size_t bit);

/* ---- The cipher. */

/* AES-128 (FIPS 197): a block under a key. */
void wegrulsta_encrypt(const uint8_t key[16], const uint8_t block[16], uint8_t out[16]);

#ifdef __cplusplus
}
#endif

#endif
