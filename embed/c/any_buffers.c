/* Buffers that show where a call reads or writes past their ends: an unreadable page at one end traps, and guard octets
 * at the other have to keep their values. For any_octets. */
#define _DEFAULT_SOURCE
#include "any_octets.h"

#include <stdio.h>
#include <stdlib.h>
#include <string.h>
#include <sys/mman.h>

#define PAGE 4096
#define GUARD 64
#define GUARD_OCTET 0xA5

/* A buffer of up to `room` octets. */
void lent_make(lent *l, size_t room) {
    l->room = (room + GUARD + PAGE - 1) / PAGE * PAGE;
    uint8_t *all = mmap(NULL, l->room + 2 * PAGE, PROT_NONE, MAP_PRIVATE | MAP_ANONYMOUS, -1, 0);
    l->before = malloc(l->room);
    if (all == MAP_FAILED || l->before == NULL || mprotect(all + PAGE, l->room, PROT_READ | PROT_WRITE) != 0) {
        fprintf(stderr, "no memory\n");
        exit(2);
    }
    l->region = all + PAGE;
    lend(l, 0, 0);
}

/* Lends so many octets, whatever they hold; an odd `how` at the front of the region, an even one at its end. */
void lend(lent *l, size_t count, uint64_t how) {
    if (count > l->room - GUARD) {
        count = l->room - GUARD;
    }
    l->count = count;
    if (how % 2 == 1) {
        l->octets = l->region;
        l->guard = l->region + count;
    } else {
        l->octets = l->region + l->room - count;
        l->guard = l->octets - GUARD;
    }
    memset(l->guard, GUARD_OCTET, GUARD);
}

/* Keeps what the buffer holds, to be compared after the call. */
void lent_remember(lent *l) { memcpy(l->before, l->octets, l->count); }

/* The octets from one index to before another are as they were. */
bool lent_kept(const lent *l, size_t from, size_t to) {
    return from <= to && to <= l->count && memcmp(l->octets + from, l->before + from, to - from) == 0;
}

bool lent_guarded(const lent *l) {
    for (size_t i = 0; i < GUARD; i++) {
        if (l->guard[i] != GUARD_OCTET) {
            return false;
        }
    }
    return true;
}
