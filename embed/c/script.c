/* A fixed run: first document 01's bench sample, then the calls that a unit may do without (calls.c), then a unit whose
 * host sends the octets below in odd pieces and whose central does what is written here. Prints lines as the bench does:
 * E an event that the host hears, X a packet that goes on the air, D a call's number and the buffers in use; and P a
 * packet of the host, A what the air does. ../expected has the lines, and ../rust/examples/unit.rs prints the same. */
#include "unit.h"
#include "../wegrulsta_bench.h"

#include <stdio.h>
#include <string.h>

static const char sample[] = "P\t01030c00\nP\t01022000\nO\t1\t24\t0\t42\nP\t0201000100aa\nP\t0201000100bb\nP\t0201000100cc\n"
                             "T\t1\t1\nC\t1\t1\n";

/* The host's packets, in hexadecimal, each part ended by a null pointer. */
static const char *const bring_up[] = {
    "01030c00",                                                             /* Reset */
    "01011000",                                                             /* Read Local Version Information */
    "01031000",                                                             /* Read Local Supported Features */
    "01091000",                                                             /* Read BD_ADDR */
    "01022000",                                                             /* LE Read Buffer Size */
    "01010c0890e8040200800020",                                             /* Set Event Mask, as Linux does */
    "010120081f00000000000000",                                             /* LE Set Event Mask */
    "01182000",                                                             /* LE Rand */
    "01050c00",                                                             /* an opcode without a row */
    "0106200f000800080000000000000000000700",                               /* LE Set Advertising Parameters */
    "010820200302010600000000000000000000000000000000000000000000000000000000", /* LE Set Advertising Data */
    "010a200101",                                                           /* LE Set Advertising Enable */
    NULL,
};
static const char *const three_packets[] = {"02010007000300040002b900", "02010003000a0b0c", "0201200100dd", NULL};
static const char *const one_packet[] = {"0201000200eeff", NULL};
static const char *const advertise[] = {"010a200101", NULL};
static const char *const disconnect[] = {"010514020100", "01060403010013", NULL}; /* Read RSSI, Disconnect */
static const char *const reset[] = {"01030c00", NULL};

static const unit_central central = {1, {0xA1, 0xA2, 0xA3, 0xA4, 0xA5, 0xC6}, 24, 0, 42, 0};

static void print_octets(char letter, const uint8_t *octets, size_t count) {
    printf("%c\t", letter);
    for (size_t i = 0; i < count; i++) {
        printf("%02x", octets[i]);
    }
    printf("\n");
}

/* Packets that stand end to end, a line for each. */
static void print_packets(char letter, const uint8_t *octets, size_t count) {
    size_t at = 0;
    while (at < count) {
        wegrulsta_length front = wegrulsta_packet_length(octets + at, count - at);
        if (front.kind != WEGRULSTA_PACKETS) {
            printf("no packet\n");
            return;
        }
        print_octets(letter, octets + at, front.len);
        at += front.len;
    }
}

static void print_events(const uint8_t *octets, size_t count) { print_packets('E', octets, count); }
static void print_sent(const uint8_t *octets, size_t count) { print_packets('X', octets, count); }
static void print_host(const uint8_t *packet, size_t count) { print_octets('P', packet, count); }

static void print_called(const unit *u, const char *call, int number) {
    (void)call;
    printf("D\t%d\t%zu\n", number, wegrulsta_buffers_in_use(u->profile, u->state).count);
}

static uint64_t same_random(void) { return 0x0123456789ABCDEFu; }

static const unit_sides printed = {print_events, print_sent, print_host, print_called, same_random};

static size_t add_hex(uint8_t *to, size_t count, const char *hex) {
    unsigned octet;
    while (sscanf(hex, "%2x", &octet) == 1) {
        to[count++] = (uint8_t)octet;
        hex += 2;
    }
    return count;
}

/* The packets' octets end to end, in pieces of 1, 2, 3, 5, 8, 13, 1, .. octets. */
static void host_sends(unit *u, const char *const *packets) {
    static const size_t pieces[] = {1, 2, 3, 5, 8, 13};
    uint8_t octets[512];
    size_t count = 0, at = 0;
    while (*packets != NULL) {
        count = add_hex(octets, count, *packets++);
    }
    for (size_t i = 0; at < count; i++) {
        size_t piece = pieces[i % 6] < count - at ? pieces[i % 6] : count - at;
        if (!unit_receive(u, octets + at, piece)) {
            printf("framing is lost\n");
        }
        at += piece;
    }
}

static void print_sample(void) {
    static uint8_t out[4096];
    size_t written = wegrulsta_bench((const uint8_t *)sample, strlen(sample), out, sizeof out);
    fwrite(out, 1, written, stdout);
}

/* Three links with the handle 1, one after the other: the central leaves the first, the host ends the second, a Reset the
 * third. */
int run_script(void) {
    static unit u;
    print_sample();
    print_calls();
    unit_start(&u, &printed);
    host_sends(&u, bring_up);
    printf("A\tcentral connects\n");
    uint16_t handle = unit_connect(&u, &central);
    host_sends(&u, three_packets);
    printf("A\ttwo packets, no room\n");
    unit_send(&u, handle, 2, 19);
    printf("A\ttwo packets\n");
    unit_send(&u, handle, 2, 20);
    printf("A\tone acknowledged\n");
    unit_sent(&u, handle, 1);
    host_sends(&u, one_packet);
    printf("A\tcentral leaves\n");
    unit_link_lost(&u, handle, 0x13);
    host_sends(&u, advertise);
    printf("A\tcentral connects\n");
    handle = unit_connect(&u, &central);
    host_sends(&u, disconnect);
    printf("A\tdisconnect acknowledged\n");
    unit_disconnect_acknowledged(&u, handle);
    host_sends(&u, advertise);
    printf("A\tcentral connects\n");
    handle = unit_connect(&u, &central);
    host_sends(&u, one_packet);
    printf("A\tone packet\n");
    unit_send(&u, handle, 1, 100);
    host_sends(&u, reset);
    return 0;
}
