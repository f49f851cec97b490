/* Makes the call of a trial and looks at what came back: the number that is due, nothing changed where it is not 0, and
 * else a state that holds together, whole packets at the front of the buffer and the octets behind them as they were. For
 * any_octets. */
#include "any_octets.h"

#include <string.h>

#define ROWS(t)                                                                                                        \
    (const uint16_t *)(const void *)(t)->opcodes.octets, (t)->opcodes.count / 2, (t)->answers.octets, (t)->answers.count, \
        (const uint16_t *)(const void *)(t)->bits.octets, (t)->bits.count / 2
#define OUT(t) (t)->out.octets, (t)->out.count

static wegrulsta_told call_told(trial *t) {
    switch (t->kind) {
    case PACKET:
        return wegrulsta_packet(t->profile, ROWS(t), t->state, t->pool.octets, t->pool.count, t->fixed.octets, t->random,
                                t->packet.octets, t->packet.count, OUT(t));
    case ACCEPT:
        return wegrulsta_accept(t->profile, t->state, t->handle, t->octet, t->fixed.octets, t->interval, t->latency,
                                t->timeout, t->accuracy, OUT(t));
    case UPDATE:
        return wegrulsta_update(t->profile, t->state, t->handle, t->interval, t->latency, t->timeout, OUT(t));
    case REQUEST_KEY:
        return wegrulsta_request_key(t->profile, t->state, t->handle, t->fixed.octets, t->count, OUT(t));
    case COMPLETED:
        return wegrulsta_completed(t->profile, t->state, t->handle, t->count, OUT(t));
    case REMOTE_DISCONNECT:
        return wegrulsta_remote_disconnect(t->profile, t->state, t->handle, t->octet, OUT(t));
    case COMPLETE_DISCONNECT:
        return wegrulsta_complete_disconnect(t->profile, t->state, t->handle, OUT(t));
    default:
        return wegrulsta_advertising_timeout(t->profile, t->state, OUT(t));
    }
}

static void call_query(trial *t, given *g) {
    if (t->kind == HAS_CONNECTION) {
        wegrulsta_connected r = wegrulsta_has_connection(t->profile, t->state, t->handle);
        g->number = r.number;
        g->found = r.connected;
    } else if (t->kind == TERMINATING) {
        wegrulsta_terminates r = wegrulsta_terminating(t->profile, t->state, t->handle);
        g->number = r.number;
        g->found = r.reason;
    } else if (t->kind == FREE_HANDLE) {
        wegrulsta_found_handle r = wegrulsta_free_handle(t->profile, t->state);
        g->number = r.number;
        g->found = r.handle;
    } else if (t->kind == BUFFERS_IN_USE) {
        wegrulsta_in_use r = wegrulsta_buffers_in_use(t->profile, t->state);
        g->number = r.number;
        g->found = r.count;
    } else {
        wegrulsta_bitmap r = wegrulsta_row_bitmap(ROWS(t));
        g->number = r.number;
        memcpy(g->map, r.map, sizeof g->map);
    }
}

void trial_call(trial *t, given *g) {
    g->count = g->written = g->found = 0;
    g->state = t->state;
    memset(g->map, 0, sizeof g->map);
    if (t->kind == TAKE) {
        wegrulsta_took r = wegrulsta_take(t->profile, t->state, t->pool.octets, t->pool.count, t->handle, t->max, OUT(t));
        g->number = r.number;
        g->state = r.state;
        g->count = r.count;
        g->written = r.written;
    } else if (t->kind == OPEN || t->kind == DROP) {
        wegrulsta_changed r = t->kind == DROP
            ? wegrulsta_drop(t->profile, t->state, t->count)
            : wegrulsta_open(t->profile, t->state, t->handle, t->interval, t->latency, t->timeout);
        g->number = r.number;
        g->state = r.state;
    } else if (t->kind >= HAS_CONNECTION) {
        call_query(t, g);
    } else {
        wegrulsta_told r = call_told(t);
        g->number = r.number;
        g->state = r.state;
        g->written = r.written;
    }
}

static const lent *const *all_lent(const trial *t) {
    static const lent *all[8];
    all[0] = &t->opcodes;
    all[1] = &t->answers;
    all[2] = &t->bits;
    all[3] = &t->packet;
    all[4] = &t->fixed;
    all[5] = &t->pool;
    all[6] = &t->out;
    return all;
}

static const char *wrong_refusal(const trial *t, const given *g) {
    static const uint8_t no_bits[WEGRULSTA_BITMAP_OCTETS];
    if (!same_state(&t->state, &g->state)) {
        return "refused, and the state is another";
    }
    if (!lent_kept(&t->pool, 0, t->pool.count) || !lent_kept(&t->out, 0, t->out.count)) {
        return "refused, and pool or buffer changed";
    }
    if (g->written != 0 || g->count != 0 || g->found != 0 || memcmp(g->map, no_bits, sizeof no_bits) != 0) {
        return "refused, and something is told";
    }
    return NULL;
}

/* Whole events, end to end, at the front of the buffer, of 71 octets at most. */
static bool events_right(const trial *t, const given *g) {
    size_t at = 0;
    while (at < g->written) {
        wegrulsta_length front = wegrulsta_packet_length(t->out.octets + at, g->written - at);
        if (t->out.octets[at] != 0x04 || front.kind != WEGRULSTA_PACKETS || front.len > g->written - at) {
            return false;
        }
        at += front.len;
    }
    return g->written <= WEGRULSTA_EVENT_OCTETS;
}

/* The link's oldest packets, as they lie in the pool, end to end at the front of the buffer. */
static bool taken_right(const trial *t, const given *g) {
    const wegrulsta_links *l = &t->state.links;
    size_t packets, at = 0, left = g->count;
    if (octets_to_take(t, &packets) != g->written || packets != g->count) {
        return false;
    }
    for (size_t i = 0; left > 0; i++) {
        const wegrulsta_waiting *w = &l->waiting[i];
        if (w->handle == t->handle) {
            if (memcmp(t->out.octets + at, t->pool.octets + w->place * WEGRULSTA_PLACE(t->profile.acl_len), w->len) != 0) {
                return false;
            }
            at += w->len;
            left--;
        }
    }
    return true;
}

/* Only the place of a packet that was queued changed, and it holds the packet. */
static bool pool_right(const trial *t, const given *g) {
    const wegrulsta_links *after = &g->state.links;
    if (t->kind != PACKET || after->waiting_count <= t->state.links.waiting_count) {
        return lent_kept(&t->pool, 0, t->pool.count);
    }
    const wegrulsta_waiting *w = &after->waiting[after->waiting_count - 1];
    size_t from = w->place * WEGRULSTA_PLACE(t->profile.acl_len);
    return w->len <= t->packet.count && lent_kept(&t->pool, 0, from) && lent_kept(&t->pool, from + w->len, t->pool.count) &&
           memcmp(t->pool.octets + from, t->packet.octets, w->len) == 0;
}

static size_t found_due(const trial *t) {
    const wegrulsta_links *l = &t->state.links;
    uint16_t handle = 1;
    switch (t->kind) {
    case HAS_CONNECTION:
        return has_handle(&t->state, t->handle);
    case TERMINATING:
        for (size_t i = 0; i < l->count; i++) {
            if (l->connections[i].handle == t->handle) {
                return l->connections[i].terminating;
            }
        }
        return 0;
    case FREE_HANDLE:
        while (has_handle(&t->state, handle)) {
            handle++;
        }
        return handle;
    case BUFFERS_IN_USE:
        return l->waiting_count + l->in_flight;
    default:
        return 0;
    }
}

static bool map_right(const trial *t, const given *g) {
    uint8_t map[WEGRULSTA_BITMAP_OCTETS] = {0};
    for (size_t i = 0; t->kind == ROW_BITMAP && i < t->answers.count; i++) {
        uint16_t bit;
        memcpy(&bit, t->bits.octets + 2 * i, 2);
        if (t->answers.octets[i] < 2 && bit < 512) {
            map[bit / 8] = (uint8_t)(map[bit / 8] | 1u << bit % 8);
        }
    }
    return memcmp(map, g->map, sizeof map) == 0;
}

static const char *wrong_answer(const trial *t, const given *g) {
    if (t->kind != ROW_BITMAP && !state_holds(&g->state, &t->profile)) {
        return "accepted, and the state does not hold together";
    }
    if (g->written > t->out.count || !lent_kept(&t->out, g->written, t->out.count)) {
        return "octets behind those written changed";
    }
    if (t->kind == TAKE && !taken_right(t, g)) {
        return "other packets were taken than are due";
    }
    if (t->kind != TAKE && !events_right(t, g)) {
        return "what is written is no events";
    }
    if (!pool_right(t, g)) {
        return "the pool is not right";
    }
    if (g->found != found_due(t) || !map_right(t, g)) {
        return "the query found another";
    }
    return NULL;
}

/* What is wrong with what came back, or NULL. */
const char *trial_wrong(const trial *t, const given *g) {
    const lent *const *all = all_lent(t);
    for (size_t i = 0; i < 7; i++) {
        if (!lent_guarded(all[i])) {
            return "guard octets changed";
        }
        if (i < 5 && !lent_kept(all[i], 0, all[i]->count)) {
            return "octets changed that are only lent for reading";
        }
    }
    if (!number_allowed(t->kind, g->number)) {
        return "a number that this call has no question for";
    }
    if (g->number != number_due(t)) {
        return "another number than is due";
    }
    return g->number != 0 ? wrong_refusal(t, g) : wrong_answer(t, g);
}
