/* A unit: what firmware keeps around the controller, and what it does with it. For firmware engineers; unit.c is the part
 * to read first. The host's side and the air's side are functions that the program puts in: script.c prints what goes to
 * them, device.c has a host on standard input and output and no air at all. */
#ifndef UNIT_H
#define UNIT_H

#include "../wegrulsta.h"

#define UNIT_ACL_LEN 251
#define UNIT_ACL_COUNT 8

typedef struct unit unit;

/* Where a unit's octets go, and what it hears of its own calls. */
typedef struct unit_sides {
    void (*to_host)(const uint8_t *octets, size_t count);         /* events, end to end */
    void (*to_air)(const uint8_t *octets, size_t count);          /* data packets, end to end */
    void (*from_host)(const uint8_t *packet, size_t count);       /* a whole packet, before it is handed over */
    void (*called)(const unit *u, const char *call, int number);  /* a call came back with this number */
    uint64_t (*random)(void);
} unit_sides;

struct unit {
    const unit_sides *sides;
    wegrulsta_profile profile;
    wegrulsta_state state;
    wegrulsta_stream stream;
    uint8_t received[WEGRULSTA_LONGEST_PACKET]; /* lent to the stream; as long as this, it never answers that there is no room */
    uint8_t pool[WEGRULSTA_POOL(UNIT_ACL_COUNT, UNIT_ACL_LEN)];
    uint16_t in_air[WEGRULSTA_LINKS + 1]; /* by handle, packets taken and not settled; wegrulsta_free_handle gives 1 to 16 */
};

/* A central that asks for a link; interval in 1.25 ms, timeout in 10 ms. */
typedef struct unit_central {
    uint8_t address_type;
    uint8_t address[6];
    uint16_t interval, latency, timeout;
    uint8_t clock_accuracy;
} unit_central;

extern const uint8_t unit_address[6];

/* rows.c: what this unit reports about itself, and its rows. */
wegrulsta_profile unit_profile(void);
wegrulsta_told unit_controller_packet(unit *u, const uint8_t *packet, size_t count, uint8_t *events, size_t room);

/* unit.c */
void unit_start(unit *u, const unit_sides *sides);
bool unit_receive(unit *u, const uint8_t *octets, size_t count);
uint16_t unit_connect(unit *u, const unit_central *central);
void unit_send(unit *u, uint16_t handle, size_t most, size_t room);
void unit_sent(unit *u, uint16_t handle, uint16_t count);
void unit_link_lost(unit *u, uint16_t handle, uint8_t reason);
bool unit_disconnect_acknowledged(unit *u, uint16_t handle);

/* script.c, with calls.c, and device.c */
int run_script(void);
void print_calls(void);
int run_device(bool central_waits);

#endif
