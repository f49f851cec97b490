/* Packets of a host, made up: commands with as many parameters as they take or another number, data for links and for
 * none, and any octets. For any_octets. */
#include "any_octets.h"

#include <string.h>

/* Each opcode that the controller knows, with its number of parameter octets (crates/commands/specs/Table.antt). */
static const uint16_t commands[][2] = {
    {0x0406, 3}, {0x041D, 2}, {0x0C01, 8}, {0x0C03, 0}, {0x0C2D, 3}, {0x0C31, 1}, {0x0C33, 7}, {0x0C35, 5}, {0x0C63, 8},
    {0x0C7B, 2}, {0x0C7C, 4}, {0x1001, 0}, {0x1002, 0}, {0x1003, 0}, {0x1009, 0}, {0x1405, 2}, {0x2001, 8}, {0x2002, 0},
    {0x2003, 0}, {0x2005, 6}, {0x2006, 15}, {0x2007, 0}, {0x2008, 32}, {0x2009, 32}, {0x200A, 1}, {0x200B, 7}, {0x200C, 2},
    {0x200D, 25}, {0x200E, 0}, {0x200F, 0}, {0x2010, 0}, {0x2011, 7}, {0x2012, 7}, {0x2013, 14}, {0x2014, 5}, {0x2015, 2},
    {0x2016, 2}, {0x2017, 32}, {0x2018, 0}, {0x2019, 28}, {0x201A, 18}, {0x201B, 2}, {0x2020, 14}, {0x2021, 3}, {0x2022, 6},
    {0x2023, 0}, {0x2024, 4}, {0x2027, 39}, {0x2028, 7}, {0x2029, 0}, {0x202A, 0}, {0x202B, 7}, {0x202C, 7}, {0x202D, 1},
    {0x202E, 2}, {0x202F, 0}, {0x2030, 2}, {0x2031, 3}, {0x2032, 7}, {0x204E, 8}, {0x201C, 0}, {0x201D, 1}, {0x201E, 3},
    {0x201F, 0}, {0x2033, 3}, {0x2034, 4}, {0x203A, 0}, {0x203B, 0}, {0x204B, 0}, {0x204C, 0}, {0x204D, 4},
};
#define COMMANDS (sizeof commands / sizeof commands[0])

/* An octet that parameters often have, or any. */
static uint8_t likely_octet(void) {
    static const uint8_t likely[] = {0, 0, 0, 1, 1, 2, 3, 6, 7, 0x13, 0x18, 0x1F, 0x20, 0x40, 0xFB, 0xFF};
    return chance(85) ? likely[random_below(sizeof likely)] : (uint8_t)random_number();
}

/* A Reset takes all links away, so it comes seldom. */
static const uint16_t *likely_command(void) {
    const uint16_t *command = commands[random_below(COMMANDS)];
    return command[0] == 0x0C03 && chance(90) ? commands[2] : command;
}

static size_t make_command(trial *t, uint8_t *p) {
    const uint16_t *command = likely_command();
    uint16_t opcode = chance(95) ? command[0] : (uint16_t)random_number();
    size_t parameters = chance(92) ? command[1] : random_below(256);
    p[0] = 0x01;
    p[1] = (uint8_t)opcode;
    p[2] = (uint8_t)(opcode >> 8);
    p[3] = (uint8_t)parameters;
    for (size_t i = 0; i < parameters; i++) {
        p[4 + i] = likely_octet();
    }
    if (parameters >= 2 && chance(50)) {
        p[4] = (uint8_t)t->handle;
        p[5] = (uint8_t)(t->handle >> 8);
    }
    if ((opcode == 0x0C01 || opcode == 0x2001) && chance(90)) {
        memset(p + 4, 0xFF, parameters);
    }
    return 4 + parameters;
}

static size_t make_data(trial *t, uint8_t *p) {
    size_t length = chance(70) ? random_below(40) : t->profile.acl_len + random_below(4) - 1;
    if (length > 1100) {
        length = 1100;
    }
    p[0] = 0x02;
    p[1] = (uint8_t)t->handle;
    p[2] = (uint8_t)((t->handle >> 8) | (chance(30) ? random_number() & 0xF0 : 0));
    p[3] = (uint8_t)length;
    p[4] = (uint8_t)(length >> 8);
    random_fill(p + 5, length);
    return 5 + length;
}

/* The packet is made elsewhere and then lent with its length, now and then too short or too long. */
void packet_make(trial *t) {
    uint8_t p[2048];
    size_t count;
    unsigned which = (unsigned)random_below(100);
    if (which < 50) {
        count = make_command(t, p);
    } else if (which < 90) {
        count = make_data(t, p);
    } else {
        count = random_below(80);
        random_fill(p, count);
        if (which < 97) {
            p[0] = (uint8_t)random_below(7);
        }
    }
    size_t lent_count = count;
    if (chance(4)) {
        lent_count = random_below(count + 1);
    } else if (chance(4)) {
        lent_count = count + random_below(20);
        random_fill(p + count, lent_count - count);
    }
    lend(&t->packet, lent_count, random_number());
    memcpy(t->packet.octets, p, t->packet.count);
}
