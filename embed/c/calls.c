/* The calls that a unit may do without, each made once and printed: its name, its number or kind, and what it gave. For
 * the fixed run, so that every function of the header is called from C and from Rust. */
#include "unit.h"

#include <stdio.h>
#include <string.h>

#define ROOM 16

static void print_wrote(const char *name, wegrulsta_wrote wrote, const uint8_t *octets) {
    printf("%s\t%d\t", name, wrote.number);
    for (size_t i = 0; i < wrote.written; i++) {
        printf("%02x", octets[i]);
    }
    printf("\n");
}

static void print_told(const char *name, const wegrulsta_told *told, const uint8_t *octets) {
    wegrulsta_wrote wrote = {told->number, told->written};
    print_wrote(name, wrote, octets);
}

static void print_writers(void) {
    static const uint8_t load[256] = {0xAA, 0xBB};
    static const uint16_t handles[] = {1, 2}, counts[] = {3, 4, 5};
    uint8_t out[ROOM];
    print_wrote("write_event", wegrulsta_write_event(0x10, load, 1, out, ROOM), out);
    print_wrote("write_event", wegrulsta_write_event(0x10, load, 256, out, ROOM), out);
    print_wrote("write_event", wegrulsta_write_event(0x10, load, 14, out, ROOM), out);
    print_wrote("write_acl", wegrulsta_write_acl(0xF001, 2, load, 2, out, ROOM), out);
    print_wrote("write_command_complete", wegrulsta_write_command_complete(1, 0x0C03, load + 2, 1, out, ROOM), out);
    print_wrote("write_command_status", wegrulsta_write_command_status(1, 0x0C, 0x0406, out, ROOM), out);
    print_wrote("write_completed_packets", wegrulsta_write_completed_packets(handles, 2, counts, 3, out, ROOM), out);
    print_wrote("write_le_meta", wegrulsta_write_le_meta(0x01, load, 2, out, ROOM), out);
}

static void print_readers(void) {
    static const uint8_t command[] = {0x01, 0x0A, 0x20, 0x01, 0x01}, data[] = {0x02, 0x01, 0x60, 0x02, 0x00, 0xAA, 0xBB};
    for (size_t count = 3; count <= 5; count++) {
        wegrulsta_command c = wegrulsta_read_command(command, count);
        printf("read_command\t%d\t%d\t%04x\n", c.kind, c.len, c.opcode);
    }
    for (size_t count = 4; count <= 7; count += 3) {
        wegrulsta_acl a = wegrulsta_read_acl(data, count);
        printf("read_acl\t%d\t%d\t%d\t%d\t%d\n", a.kind, a.boundary, a.broadcast, a.handle, a.len);
    }
    printf("read_acl\t%d\n", wegrulsta_read_acl(command, 5).kind);
    wegrulsta_length none = wegrulsta_packet_length(command, 0), whole = wegrulsta_packet_length(data, 7);
    wegrulsta_length undefined = wegrulsta_packet_length(data + 5, 2);
    printf("packet_length\t%d\t%d\t%zu\n", none.kind, none.indicator, none.len);
    printf("packet_length\t%d\t%d\t%zu\n", whole.kind, whole.indicator, whole.len);
    printf("packet_length\t%d\t%d\t%zu\n", undefined.kind, undefined.indicator, undefined.len);
}

static void print_bits(void) {
    static const uint8_t key[16] = {0, 1, 2, 3, 4, 5, 6, 7, 8, 9, 10, 11, 12, 13, 14, 15};
    static const uint8_t block[16] = {0x00, 0x11, 0x22, 0x33, 0x44, 0x55, 0x66, 0x77,
                                      0x88, 0x99, 0xAA, 0xBB, 0xCC, 0xDD, 0xEE, 0xFF};
    uint8_t map[2] = {0, 0}, out[16];
    printf("opcode\t%04x\n", wegrulsta_opcode(0x03, 0x0003));
    printf("is_async\t%d\t%d\n", wegrulsta_is_async(0x0406), wegrulsta_is_async(0x0C03));
    for (uint32_t bit = 62; bit <= 64; bit++) {
        wegrulsta_has has = wegrulsta_mask_has((uint64_t)1 << 63, bit);
        printf("mask_has\t%d\t%d\n", has.number, has.has);
    }
    wegrulsta_set_bit(map, 2, 9);
    wegrulsta_set_bit(map, 2, 16);
    printf("set_bit\t%02x%02x\n", map[0], map[1]);
    wegrulsta_encrypt(key, block, out);
    wegrulsta_wrote all = {0, 16};
    print_wrote("encrypt", all, out);
}

/* A state may be written by whoever keeps it: here the masks are. */
static void print_notices(void) {
    static const uint8_t random[8] = {1, 2, 3, 4, 5, 6, 7, 8};
    uint8_t out[WEGRULSTA_EVENT_OCTETS];
    wegrulsta_profile profile = unit_profile();
    wegrulsta_state state = wegrulsta_start();
    state.masks.event = UINT64_MAX;
    wegrulsta_changed opened = wegrulsta_open(profile, state, 5, 24, 0, 42);
    printf("open\t%d\n", opened.number);
    wegrulsta_connected has = wegrulsta_has_connection(profile, opened.state, 5);
    printf("has_connection\t%d\t%d\n", has.number, has.connected);
    wegrulsta_told told = wegrulsta_update(profile, opened.state, 5, 30, 1, 50, out, sizeof out);
    print_told("update", &told, out);
    told = wegrulsta_request_key(profile, told.state, 5, random, 0x1234, out, sizeof out);
    print_told("request_key", &told, out);
    told = wegrulsta_advertising_timeout(profile, told.state, out, sizeof out);
    print_told("advertising_timeout", &told, out);
}

void print_calls(void) {
    print_writers();
    print_readers();
    print_bits();
    print_notices();
}
