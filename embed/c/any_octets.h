/* "Any octets are a state and a profile", tried: what the parts of the program any_octets share. For those who want to
 * see the claim tried and not only proved. A trial is one call with everything that it is handed; any_make.c makes it up,
 * any_call.c makes it and looks at what came back, any_questions.c says which number is due, any_octets.c counts. */
#ifndef ANY_OCTETS_H
#define ANY_OCTETS_H

#include "../wegrulsta.h"

typedef enum kind {
    PACKET, TAKE, OPEN, ACCEPT, UPDATE, REQUEST_KEY, COMPLETED, DROP, REMOTE_DISCONNECT, COMPLETE_DISCONNECT,
    ADVERTISING_TIMEOUT, HAS_CONNECTION, TERMINATING, FREE_HANDLE, BUFFERS_IN_USE, ROW_BITMAP, KINDS
} kind;

/* Where a trial's state comes from. */
typedef enum origin {
    REACHED,       /* by calls */
    FLAGS,         /* the same, with any octets for its 19 flags */
    DAMAGED,       /* the same, with a few octets changed */
    SHAPED,        /* any octets, but for counts that fit */
    ANY,           /* any octets */
    ZEROED,        /* or all 0xFF */
    ORIGINS
} origin;

/* A lent buffer. It ends where an unreadable page begins, or begins where one ends, and has guard octets at its other end. */
typedef struct lent {
    uint8_t *region;
    size_t room;
    uint8_t *octets;
    size_t count;
    uint8_t *before; /* what it held before the call */
    uint8_t *guard;
} lent;

typedef struct trial {
    kind kind;
    origin origin;
    wegrulsta_profile profile;
    wegrulsta_state state;
    lent opcodes, answers, bits, pool, packet, fixed, out; /* fixed: an address or a random number of eight octets */
    uint16_t handle, interval, latency, timeout, count;
    uint8_t octet, accuracy;
    uint64_t random;
    size_t max;
} trial;

/* What a call gave. */
typedef struct given {
    int number;
    wegrulsta_state state;
    size_t count, written;
    size_t found; /* what a query found */
    uint8_t map[WEGRULSTA_BITMAP_OCTETS];
} given;

/* any_buffers.c */
void lent_make(lent *l, size_t room);
void lend(lent *l, size_t count, uint64_t how);
void lent_remember(lent *l);
bool lent_kept(const lent *l, size_t from, size_t to);
bool lent_guarded(const lent *l);

/* any_random.c */
void random_seed(uint64_t seed);
uint64_t random_number(void);
size_t random_below(size_t limit);
bool chance(unsigned percent);
void random_fill(void *octets, size_t count);

/* any_make.c, with any_packet.c for packets */
void trials_prepare(trial *t);
void trial_make(trial *t);
void trial_learn(const trial *t, const given *g);
void packet_make(trial *t);

/* any_questions.c */
bool profile_fits(const wegrulsta_profile *p);
bool state_holds(const wegrulsta_state *s, const wegrulsta_profile *p);
size_t octets_to_take(const trial *t, size_t *packets);
bool has_handle(const wegrulsta_state *s, uint16_t handle);
int number_due(const trial *t);
bool number_allowed(kind k, int number);

/* any_call.c, with same_state.c */
void trial_call(trial *t, given *g);
const char *trial_wrong(const trial *t, const given *g);
bool same_state(const wegrulsta_state *a, const wegrulsta_state *b);

#endif
