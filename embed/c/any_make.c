/* Makes trials up: profiles, rows, states, buffers around their limits, and arguments. A course of trials has one profile
 * and a state that its calls lead on; what a trial is handed is that, a damaged copy of it, or any octets. For
 * any_octets. */
#include "any_octets.h"

#include <string.h>

#define MOST_POOL 34000
#define COURSE 150 /* trials with one profile, about */

static wegrulsta_profile good_profile;
static wegrulsta_state good_state;
static uint16_t good_opcodes[300], good_bits[300];
static uint8_t good_answers[300];
static size_t good_rows;

void trials_prepare(trial *t) {
    lent_make(&t->opcodes, 800);
    lent_make(&t->answers, 400);
    lent_make(&t->bits, 800);
    lent_make(&t->pool, MOST_POOL);
    lent_make(&t->packet, 2100);
    lent_make(&t->fixed, 8);
    lent_make(&t->out, MOST_POOL);
}

static size_t one_of(size_t least, size_t most) {
    switch (random_below(4)) {
    case 0: return least;
    case 1: return most;
    case 2: return least + random_below(most - least < 3 ? most - least + 1 : 3);
    default: return least + random_below(most - least + 1);
    }
}

/* First the opcodes that the controller knows, so that most courses have rows of them, then any. */
static void new_rows(void) {
    static const uint16_t others[] = {0x0406, 0x041D, 0x0C01, 0x0C03, 0x0C2D, 0x0C31, 0x0C33, 0x0C35, 0x0C63, 0x0C7B,
                                      0x0C7C, 0x1001, 0x1002, 0x1003, 0x1009, 0x1405};
    good_rows = chance(70) ? 255 : one_of(0, 256);
    random_fill(good_opcodes, sizeof good_opcodes);
    for (size_t i = 0; i < 300; i++) {
        good_bits[i] = (uint16_t)(chance(95) ? random_below(600) : random_number());
        good_answers[i] = chance(80) ? 0 : (uint8_t)random_below(3);
    }
    for (size_t i = 0; i < 0x50; i++) {
        good_opcodes[i] = (uint16_t)(0x2000 + i);
    }
    memcpy(good_opcodes + 0x50, others, sizeof others);
}

static void new_course(void) {
    random_fill(&good_profile, sizeof good_profile);
    good_profile.acl_len = (uint16_t)(chance(70) ? 27 + random_below(40) : one_of(27, 1019));
    good_profile.acl_count = (uint8_t)one_of(1, 32);
    good_profile.accept_list_size = (uint8_t)one_of(0, 32);
    good_profile.resolving_list_size = (uint8_t)one_of(0, 16);
    good_state = wegrulsta_start();
    new_rows();
}

static void make_profile(trial *t) {
    t->profile = good_profile;
    if (chance(4)) {
        uint8_t *octets = (uint8_t *)&t->profile;
        octets[offsetof(wegrulsta_profile, acl_len) + random_below(6)] = (uint8_t)random_number();
    } else if (chance(3)) {
        static const uint16_t lengths[] = {0, 26, 27, 1019, 1020, 65535};
        t->profile.acl_len = lengths[random_below(6)];
    } else if (chance(3)) {
        random_fill(&t->profile, sizeof t->profile);
    }
}

/* 0 is no, any other octet yes: question 3 asks nothing of a flag. */
static void any_flags(wegrulsta_state *s) {
    s->settings.address_resolution = (uint8_t)random_number();
    s->advertising.enabled = (uint8_t)random_number();
    s->scanning.initiating = (uint8_t)random_number();
    for (size_t i = 0; i < WEGRULSTA_LINKS; i++) {
        s->links.connections[i].ltk_requested = (uint8_t)random_number();
    }
}

/* Changes a number that question 3 asks about, by little. */
static void damage_near(wegrulsta_state *s) {
    size_t i = random_below(WEGRULSTA_WAITING), j = random_below(WEGRULSTA_LINKS);
    switch (random_below(12)) {
    case 0: s->links.count += random_below(3) - 1; break;
    case 1: s->links.waiting_count += random_below(3) - 1; break;
    case 2: s->links.in_flight = (uint16_t)(s->links.in_flight + random_below(3) - 1); break;
    case 3: s->links.waiting[i].place = (uint8_t)random_below(34); break;
    case 4: s->links.waiting[i].len = (uint16_t)(chance(50) ? random_below(7) : good_profile.acl_len + random_below(8)); break;
    case 5: s->links.waiting[i].handle = (uint16_t)random_below(18); break;
    case 6: s->links.connections[j].handle = (uint16_t)random_below(18); break;
    case 7: s->accept_list.count = random_below(35); break;
    case 8: s->resolving_list.count = random_below(18); break;
    case 9: s->recent.count = random_below(35); break;
    case 10: s->advertising.data_len = (uint8_t)random_below(34); break;
    default: s->settings.advertising_family = (uint8_t)random_below(4); break;
    }
}

static void damage(wegrulsta_state *s) {
    uint8_t *octets = (uint8_t *)s;
    for (size_t times = 1 + random_below(3); times > 0; times--) {
        if (chance(50)) {
            damage_near(s);
        } else {
            octets[random_below(sizeof *s)] = (uint8_t)random_number();
        }
    }
}

/* Counts that fit, with any octets around them; packets that wait are made to fit in half of these. */
static void shape(wegrulsta_state *s) {
    s->settings.advertising_family %= 3;
    s->settings.test %= 3;
    s->advertising.data_len %= 32;
    s->advertising.scan_response_len %= 32;
    s->recent.count = random_below(33);
    s->accept_list.count = random_below((size_t)good_profile.accept_list_size + 1);
    s->resolving_list.count = random_below((size_t)good_profile.resolving_list_size + 1);
    s->links.count = 1 + random_below(WEGRULSTA_LINKS);
    s->links.waiting_count = random_below((size_t)good_profile.acl_count + 1);
    s->links.in_flight = (uint16_t)random_below((size_t)good_profile.acl_count - s->links.waiting_count + 1);
    for (size_t i = 0; i < s->links.waiting_count && chance(99); i++) {
        wegrulsta_waiting *w = &s->links.waiting[i];
        w->handle = s->links.connections[random_below(s->links.count)].handle;
        w->len = (uint16_t)(5 + random_below((size_t)good_profile.acl_len + 1));
        w->place = (uint8_t)i;
    }
}

static void make_state(trial *t) {
    size_t which = random_below(100);
    t->origin = which < 55   ? REACHED
                : which < 65 ? FLAGS
                : which < 83 ? DAMAGED
                : which < 93 ? SHAPED
                : which < 97 ? ANY
                             : ZEROED;
    t->state = good_state;
    switch (t->origin) {
    case FLAGS: any_flags(&t->state); break;
    case DAMAGED: damage(&t->state); break;
    case SHAPED: random_fill(&t->state, sizeof t->state); shape(&t->state); break;
    case ANY: random_fill(&t->state, sizeof t->state); break;
    case ZEROED: memset(&t->state, chance(70) ? 0 : 0xFF, sizeof t->state); break;
    default: break;
    }
}

static void make_rows(trial *t) {
    size_t counts[3] = {good_rows, good_rows, good_rows};
    if (chance(3)) {
        counts[random_below(3)] = random_below(300);
    } else if (chance(2)) {
        counts[0] = counts[1] = counts[2] = 255 + random_below(4);
    }
    lend(&t->opcodes, 2 * counts[0], random_number());
    lend(&t->answers, counts[1], random_number());
    lend(&t->bits, 2 * counts[2], random_number());
    memcpy(t->opcodes.octets, good_opcodes, t->opcodes.count);
    memcpy(t->answers.octets, good_answers, t->answers.count);
    memcpy(t->bits.octets, good_bits, t->bits.count);
    if (counts[1] > 0 && chance(2)) {
        t->answers.octets[random_below(counts[1])] = (uint8_t)(3 + random_below(253));
    }
}

/* A length at a limit, beside it, or anywhere. */
static size_t near(size_t limit) {
    switch (random_below(12)) {
    case 0: return limit - (limit > 0);
    case 1: return limit + 1;
    case 2: return limit + random_below(100);
    case 3: return random_below(limit + 1);
    default: return limit;
    }
}

static void make_buffers(trial *t) {
    size_t packets, limit = WEGRULSTA_EVENT_OCTETS;
    if (t->kind == TAKE) {
        limit = state_holds(&t->state, &t->profile) ? octets_to_take(t, &packets) : random_below(2000);
    }
    lend(&t->out, near(limit), random_number());
    random_fill(t->out.octets, t->out.count);
    limit = t->kind == PACKET || t->kind == TAKE ? near(WEGRULSTA_POOL(t->profile.acl_count, t->profile.acl_len)) : 0;
    lend(&t->pool, limit, random_number());
    random_fill(t->pool.octets, t->pool.count);
    lend(&t->fixed, 6 + (t->kind == REQUEST_KEY ? 2 : 0), random_number());
    random_fill(t->fixed.octets, t->fixed.count);
}

static void make_numbers(trial *t) {
    static const size_t most[] = {0, 1, 2, 3, 31, 32, SIZE_MAX};
    size_t links = t->state.links.count < WEGRULSTA_LINKS ? t->state.links.count : WEGRULSTA_LINKS;
    t->handle = (uint16_t)(chance(15) ? random_number() : 1 + random_below(18));
    if (links > 0 && chance(60)) {
        t->handle = t->state.links.connections[random_below(links)].handle;
    }
    random_fill(&t->interval, sizeof t->interval);
    random_fill(&t->latency, sizeof t->latency);
    random_fill(&t->timeout, sizeof t->timeout);
    t->count = (uint16_t)(chance(90) ? random_below(4) : random_number());
    t->octet = (uint8_t)random_number();
    t->accuracy = (uint8_t)random_number();
    t->random = random_number();
    t->max = most[random_below(7)];
}

/* Packets and takes come more often: they do most. */
static kind make_kind(void) {
    size_t which = random_below(100);
    return which < 40 ? PACKET : which < 50 ? TAKE : (kind)(OPEN + random_below(KINDS - OPEN));
}

void trial_make(trial *t) {
    if (good_profile.acl_count == 0 || random_below(COURSE) == 0) {
        new_course();
    }
    t->kind = make_kind();
    make_profile(t);
    make_state(t);
    make_numbers(t);
    make_rows(t);
    make_buffers(t);
    packet_make(t);
    lent_remember(&t->opcodes);
    lent_remember(&t->answers);
    lent_remember(&t->bits);
    lent_remember(&t->packet);
    lent_remember(&t->fixed);
    lent_remember(&t->pool);
    lent_remember(&t->out);
}

/* The course goes on from what an accepted call gave. A take or a link's end empties what later calls need, so not always. */
void trial_learn(const trial *t, const given *g) {
    bool same_profile = memcmp(&t->profile, &good_profile, sizeof good_profile) == 0;
    bool empties = t->kind == TAKE || t->kind == REMOTE_DISCONNECT || t->kind == COMPLETE_DISCONNECT;
    if (g->number == 0 && same_profile && t->kind < HAS_CONNECTION && !(empties && chance(50))) {
        good_state = g->state;
    }
}
