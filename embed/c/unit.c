/* What a unit does: receives its host's octets in any pieces, hands whole packets over, sends the events, opens links,
 * puts data on the air and settles it, ends links. For firmware engineers. The state is kept here and handed from call to
 * call; nothing else changes it. */
#include "unit.h"

#include <string.h>

/* The state before the first packet. A unit that loses power starts again here: its host resets it anyway. */
void unit_start(unit *u, const unit_sides *sides) {
    memset(u, 0, sizeof *u);
    u->sides = sides;
    u->profile = unit_profile();
    u->state = wegrulsta_start();
    u->stream = wegrulsta_stream_start();
}

/* Keeps the state that a call gave and sends the host what it wrote. A refused call wrote nothing and gave the state back. */
static void keep(unit *u, const char *call, const wegrulsta_told *told, const uint8_t *events) {
    u->state = told->state;
    u->sides->to_host(events, told->written);
    u->sides->called(u, call, told->number);
}

static void keep_changed(unit *u, const char *call, const wegrulsta_changed *changed) {
    u->state = changed->state;
    u->sides->called(u, call, changed->number);
}

/* One whole packet of the host. Only Reset ends links by a packet, and it ends all: what they had in the air is settled
 * then. */
static void hand_over(unit *u, const uint8_t *packet, size_t count) {
    uint8_t events[WEGRULSTA_EVENT_OCTETS];
    u->sides->from_host(packet, count);
    wegrulsta_told told = unit_controller_packet(u, packet, count, events, sizeof events);
    keep(u, "packet", &told, events);
    if (u->state.links.count == 0) {
        memset(u->in_air, 0, sizeof u->in_air);
    }
}

/* Octets of the host, as they come. Fed no more at once than there is room for. False where framing is lost: the transport has
 * to be started again, with a new stream, and the host resets. */
bool unit_receive(unit *u, const uint8_t *octets, size_t count) {
    while (count > 0) {
        size_t room = sizeof u->received - u->stream.held;
        size_t piece = count < room ? count : room;
        wegrulsta_fed fed = wegrulsta_stream_feed(u->stream, u->received, sizeof u->received, octets, piece);
        u->stream = fed.stream;
        if (fed.kind != WEGRULSTA_PACKETS) {
            return false;
        }
        size_t at = 0;
        size_t length = wegrulsta_stream_packet(u->stream, u->received, sizeof u->received, at);
        while (length > 0) {
            hand_over(u, u->received + at, length);
            at += length;
            length = wegrulsta_stream_packet(u->stream, u->received, sizeof u->received, at);
        }
        octets += piece;
        count -= piece;
    }
    return true;
}

/* A central asked for a link while the unit advertised. The link's handle; 0 where it was refused, and then nothing has
 * changed. */
uint16_t unit_connect(unit *u, const unit_central *central) {
    uint8_t events[WEGRULSTA_EVENT_OCTETS];
    wegrulsta_found_handle found = wegrulsta_free_handle(u->profile, u->state);
    if (found.number != WEGRULSTA_ACCEPTED) {
        return 0;
    }
    wegrulsta_told told = wegrulsta_accept(u->profile, u->state, found.handle, central->address_type, central->address,
                                           central->interval, central->latency, central->timeout, central->clock_accuracy,
                                           events, sizeof events);
    keep(u, "accept", &told, events);
    return told.number == WEGRULSTA_ACCEPTED ? found.handle : 0;
}

/* The link has a connection event: up to so many packets, of so many octets together, go on the air. */
void unit_send(unit *u, uint16_t handle, size_t most, size_t room) {
    uint8_t packets[WEGRULSTA_POOL(UNIT_ACL_COUNT, UNIT_ACL_LEN)];
    if (room > sizeof packets) {
        room = sizeof packets;
    }
    wegrulsta_took took = wegrulsta_take(u->profile, u->state, u->pool, sizeof u->pool, handle, most, packets, room);
    u->state = took.state;
    if (took.count > 0) {
        u->in_air[handle] = (uint16_t)(u->in_air[handle] + took.count);
        u->sides->to_air(packets, took.written);
    }
    u->sides->called(u, "take", took.number);
}

/* The peer acknowledged so many packets of the link, no more than are in the air. */
void unit_sent(unit *u, uint16_t handle, uint16_t count) {
    uint8_t events[WEGRULSTA_EVENT_OCTETS];
    wegrulsta_told told = wegrulsta_completed(u->profile, u->state, handle, count, events, sizeof events);
    u->in_air[handle] = (uint16_t)(u->in_air[handle] - count);
    keep(u, "completed", &told, events);
}

/* What the link had in the air will not go out any more. To be made directly after the call that ended the link. */
static void settle(unit *u, uint16_t handle) {
    if (u->in_air[handle] > 0) {
        wegrulsta_changed changed = wegrulsta_drop(u->profile, u->state, u->in_air[handle]);
        u->in_air[handle] = 0;
        keep_changed(u, "drop", &changed);
    }
}

/* The peer ended the link, or it was lost. */
void unit_link_lost(unit *u, uint16_t handle, uint8_t reason) {
    uint8_t events[WEGRULSTA_EVENT_OCTETS];
    wegrulsta_told told = wegrulsta_remote_disconnect(u->profile, u->state, handle, reason, events, sizeof events);
    keep(u, "remote disconnect", &told, events);
    settle(u, handle);
}

/* The peer acknowledged that the host ends the link. False where the host does not. */
bool unit_disconnect_acknowledged(unit *u, uint16_t handle) {
    uint8_t events[WEGRULSTA_EVENT_OCTETS];
    wegrulsta_terminates waits = wegrulsta_terminating(u->profile, u->state, handle);
    if (waits.number != WEGRULSTA_ACCEPTED || waits.reason == 0) {
        return false;
    }
    wegrulsta_told told = wegrulsta_complete_disconnect(u->profile, u->state, handle, events, sizeof events);
    keep(u, "complete disconnect", &told, events);
    settle(u, handle);
    return true;
}
