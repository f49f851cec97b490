/* What the unit of this example reports about itself, and its rows: every opcode that the controller knows
 * (crates/commands/specs/Table.antt), with its bit of Supported_Commands (Core Vol 4 Part E section 6.27: octet times 8, plus
 * bit). Chosen so that a Linux host can use it (README.md). For firmware engineers. */
#include "unit.h"

#include <string.h>

#define ROWS(row)                                                                                             \
    row(0x0406, 5) row(0x041D, 23) row(0x0C01, 46) row(0x0C03, 47) row(0x0C2D, 82) row(0x0C31, 85)            \
    row(0x0C33, 86) row(0x0C35, 87) row(0x0C63, 178) row(0x0C7B, 260) row(0x0C7C, 261) row(0x1001, 115)       \
    row(0x1002, WEGRULSTA_NO_BIT) row(0x1003, 117) row(0x1009, 121) row(0x1405, 125)                          \
    row(0x2001, 200) row(0x2002, 201) row(0x2003, 202) row(0x2005, 204) row(0x2006, 205) row(0x2007, 206)     \
    row(0x2008, 207) row(0x2009, 208) row(0x200A, 209) row(0x200B, 210) row(0x200C, 211) row(0x200D, 212)     \
    row(0x200E, 213) row(0x200F, 214) row(0x2010, 215) row(0x2011, 216) row(0x2012, 217) row(0x2013, 218)     \
    row(0x2014, 219) row(0x2015, 220) row(0x2016, 221) row(0x2017, 222) row(0x2018, 223) row(0x2019, 224)     \
    row(0x201A, 225) row(0x201B, 226) row(0x201C, 227) row(0x201D, 228) row(0x201E, 229) row(0x201F, 230)     \
    row(0x2020, 268) row(0x2021, 269) row(0x2022, 270) row(0x2023, 271) row(0x2024, 272) row(0x2027, 275)     \
    row(0x2028, 276) row(0x2029, 277) row(0x202A, 278) row(0x202B, 279) row(0x202C, 280) row(0x202D, 281)     \
    row(0x202E, 282) row(0x202F, 283) row(0x2030, 284) row(0x2031, 285) row(0x2032, 286) row(0x2033, 287)     \
    row(0x2034, 288) row(0x203A, 294) row(0x203B, 295) row(0x204B, 311) row(0x204C, 312) row(0x204D, 313)     \
    row(0x204E, 314)
#define OPCODE(opcode, bit) opcode,
#define MODELLED(opcode, bit) WEGRULSTA_MODELLED,
#define BIT(opcode, bit) bit,
#define COUNT(slice) (sizeof(slice) / sizeof((slice)[0]))

static const uint16_t opcodes[] = {ROWS(OPCODE)};
static const uint8_t answers[] = {ROWS(MODELLED)};
static const uint16_t bits[] = {ROWS(BIT)};

/* Low octet first: C0:FF:EE:00:51:0B is how it is written. */
const uint8_t unit_address[6] = {0x0B, 0x51, 0x00, 0xEE, 0xFF, 0xC0};

wegrulsta_profile unit_profile(void) {
    wegrulsta_profile p;
    memset(&p, 0, sizeof p);
    p.hci_version = 0x0D; /* Core 5.4 */
    p.lmp_version = 0x0D;
    p.company = 0xFFFF; /* none: for tests */
    p.lmp_features[4] = 0x60;        /* BR/EDR Not Supported, LE Supported (Controller) */
    p.le_features = 0x0171;          /* encryption, ping, data length, privacy, LE 2M (Core Vol 6 Part B section 4.6) */
    memset(p.supported_states, 0xFF, 5);
    p.supported_states[5] = 0x03;
    p.acl_len = UNIT_ACL_LEN;
    p.acl_count = UNIT_ACL_COUNT;
    p.accept_list_size = WEGRULSTA_ACCEPT_ENTRIES;
    p.resolving_list_size = WEGRULSTA_IDENTITIES;
    p.tx_power_min = -20;
    p.tx_power_max = 8;
    p.max_tx_octets = 251;
    p.max_tx_time = 2120;
    p.max_adv_data_len = 31;
    p.adv_sets = 1;
    p.num_command_packets = 1;
    wegrulsta_bitmap found = wegrulsta_row_bitmap(opcodes, COUNT(opcodes), answers, COUNT(answers), bits, COUNT(bits));
    memcpy(p.supported_commands, found.map, sizeof p.supported_commands);
    return p;
}

/* Hands a packet over with the rows. */
wegrulsta_told unit_controller_packet(unit *u, const uint8_t *packet, size_t count, uint8_t *events, size_t room) {
    return wegrulsta_packet(u->profile, opcodes, COUNT(opcodes), answers, COUNT(answers), bits, COUNT(bits), u->state, u->pool,
                            sizeof u->pool, unit_address, u->sides->random(), packet, count, events, room);
}
