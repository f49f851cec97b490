/* The questions of document 01, written once more in C, to know which number a call has to come back with. For any_octets. */
#include "any_octets.h"

#include <string.h>

/* Question 1. */
bool profile_fits(const wegrulsta_profile *p) {
    return p->acl_len >= 27 && p->acl_len <= 1019 && p->acl_count >= 1 && p->acl_count <= 32 && p->accept_list_size <= 32 &&
           p->resolving_list_size <= 16;
}

/* Question 2. */
static bool rows_fit(const trial *t) {
    size_t rows = t->answers.count;
    if (t->opcodes.count / 2 != rows || t->bits.count / 2 != rows || rows > WEGRULSTA_ROWS) {
        return false;
    }
    for (size_t i = 0; i < rows; i++) {
        if (t->answers.octets[i] > 2) {
            return false;
        }
    }
    return true;
}

/* The first seven octets of each entry differ from those of every other. */
static bool entries_differ(const uint8_t *octets, size_t width, size_t count) {
    for (size_t i = 0; i < count; i++) {
        for (size_t j = 0; j < i; j++) {
            if (memcmp(octets + i * width, octets + j * width, 7) == 0) {
                return false;
            }
        }
    }
    return true;
}

bool has_handle(const wegrulsta_state *s, uint16_t handle) {
    for (size_t i = 0; i < s->links.count; i++) {
        if (s->links.connections[i].handle == handle) {
            return true;
        }
    }
    return false;
}

static bool handles_differ(const wegrulsta_links *l) {
    for (size_t i = 0; i < l->count; i++) {
        for (size_t j = 0; j < i; j++) {
            if (l->connections[i].handle == l->connections[j].handle) {
                return false;
            }
        }
    }
    return true;
}

/* Each waiting packet is a link's, alone owns one place of the pool, and has 5 to acl_len + 5 octets. */
static bool waiting_fits(const wegrulsta_state *s, const wegrulsta_profile *p) {
    const wegrulsta_links *l = &s->links;
    for (size_t i = 0; i < l->waiting_count; i++) {
        const wegrulsta_waiting *w = &l->waiting[i];
        if (w->place >= p->acl_count || w->len < 5 || w->len > WEGRULSTA_PLACE(p->acl_len) || !has_handle(s, w->handle)) {
            return false;
        }
        for (size_t j = 0; j < i; j++) {
            if (l->waiting[j].place == w->place) {
                return false;
            }
        }
    }
    return true;
}

/* Question 3. Counts are asked before what they count. */
bool state_holds(const wegrulsta_state *s, const wegrulsta_profile *p) {
    const wegrulsta_links *l = &s->links;
    return s->settings.advertising_family <= 2 && s->settings.test <= 2 && s->advertising.data_len <= 31 &&
           s->advertising.scan_response_len <= 31 && s->recent.count <= WEGRULSTA_LAST_ANSWERS &&
           l->count <= WEGRULSTA_LINKS && l->waiting_count <= WEGRULSTA_WAITING &&
           l->waiting_count + l->in_flight <= p->acl_count && handles_differ(l) && waiting_fits(s, p) &&
           s->accept_list.count <= WEGRULSTA_ACCEPT_ENTRIES && s->accept_list.count <= p->accept_list_size &&
           entries_differ(s->accept_list.octets, 7, s->accept_list.count) &&
           s->resolving_list.count <= WEGRULSTA_IDENTITIES && s->resolving_list.count <= p->resolving_list_size &&
           entries_differ(s->resolving_list.octets, 8, s->resolving_list.count);
}

/* How many octets, and how many packets, a take of this trial's handle and max gives from a state that holds together. */
size_t octets_to_take(const trial *t, size_t *packets) {
    const wegrulsta_links *l = &t->state.links;
    size_t octets = 0;
    *packets = 0;
    for (size_t i = 0; i < l->waiting_count && *packets < t->max; i++) {
        if (l->waiting[i].handle == t->handle) {
            octets += l->waiting[i].len;
            *packets += 1;
        }
    }
    return octets;
}

static bool take_fits(const trial *t) {
    size_t packets;
    return octets_to_take(t, &packets) <= t->out.count;
}

static bool answer_to(const trial *t, int question) {
    switch (question) {
    case 1: return profile_fits(&t->profile);
    case 2: return rows_fit(t);
    case 3: return state_holds(&t->state, &t->profile);
    case 4: return t->pool.count >= WEGRULSTA_POOL(t->profile.acl_count, t->profile.acl_len);
    case 5: return t->out.count >= WEGRULSTA_EVENT_OCTETS;
    case 6: return has_handle(&t->state, t->handle) || t->state.links.count < WEGRULSTA_LINKS;
    default: return take_fits(t);
    }
}

/* The questions that a call asks, in order (docs/REFUSALS.md). */
static const char *questions_of(kind k) {
    switch (k) {
    case PACKET: return "12345";
    case TAKE: return "1347";
    case OPEN: return "136";
    case ACCEPT: return "1356";
    case ROW_BITMAP: return "2";
    case DROP: case HAS_CONNECTION: case TERMINATING: case FREE_HANDLE: case BUFFERS_IN_USE: return "13";
    default: return "135";
    }
}

int number_due(const trial *t) {
    for (const char *question = questions_of(t->kind); *question != 0; question++) {
        if (!answer_to(t, *question - '0')) {
            return *question - '0';
        }
    }
    return 0;
}

bool number_allowed(kind k, int number) {
    return number == 0 || (number >= 1 && number <= 9 && strchr(questions_of(k), '0' + number) != NULL);
}
