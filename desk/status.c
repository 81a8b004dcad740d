/*
 * Channel status as EBU Tech 3250, clause 4, has it. Bit k of an octet is worth 2^k, and the printed states name bit 0
 * first.
 */
#include "status.h"

#include <string.h>

enum { PROFESSIONAL = 1, COORDINATION = 2, B = 8, C = 4 };
enum { UP_TO_24 = 4 };                   /* of octet 2: samples may have 24 bits, and how many they have isn't said */
enum { FLAGS = 22, FLAG_0_TO_5 = 0x10 }; /* the octet of the flags, and bit 4 of it */

static const struct {
    unsigned rate;
    uint8_t code;
} rates[] = {{48000, 0x80}, {44100, 0x40}, {32000, 0xC0}}; /* bits 6 and 7 of octet 0 */

static const struct {
    unsigned bits;
    uint8_t code;
} lengths[] = {
    /* of octet 2: bits 0 to 2, whether samples may have 24 bits, and bits 3 to 5 */
    {16, 0x08}, {17, 0x30}, {18, 0x10}, {19, 0x20}, {20, 0x28},
    {21, 0x34}, {22, 0x14}, {23, 0x24}, {24, 0x2C}, {20, 0x0C},
};

bool status_flagged(const uint8_t *block) {
    return (block[FLAGS] & FLAG_0_TO_5) != 0;
}

bool status_counts(const uint8_t out[RIME_OUT]) {
    return out[RIME_OUT_ANSWER] == RIME_STATUS_FITS && !status_flagged(out + RIME_OUT_OCTETS);
}

bool status_codes(unsigned rate) {
    for (size_t at = 0; at < sizeof rates / sizeof *rates; at++)
        if (rates[at].rate == rate) return true;
    return false;
}

unsigned status_rate(const uint8_t *block) {
    for (size_t at = 0; at < sizeof rates / sizeof *rates; at++)
        if ((block[0] & 0xC0) == rates[at].code) return rates[at].rate;
    return 0;
}

unsigned status_sample_bits(const uint8_t *block) {
    unsigned code = block[2] & 0x3F;
    if (code % 8 == COORDINATION) code -= COORDINATION; /* at most 20 bits, as where bits 0 to 2 are 0 */
    for (size_t at = 0; at < sizeof lengths / sizeof *lengths; at++)
        if (code == lengths[at].code) return lengths[at].bits;
    return 0;
}

static void make(uint8_t *block, unsigned rate, unsigned bits, const char *origin, const char *destination) {
    memset(block, 0, RIME_STATUS_OCTETS);
    block[0] = PROFESSIONAL;
    block[2] = bits > 24 ? UP_TO_24 : 0;
    for (size_t at = 0; at < sizeof rates / sizeof *rates; at++)
        if (rates[at].rate == rate) block[0] |= rates[at].code;
    for (size_t at = 0; at < sizeof lengths / sizeof *lengths && block[2] == 0; at++)
        if (lengths[at].bits == bits) block[2] = lengths[at].code;
    if (origin != NULL) memcpy(block + STATUS_ORIGIN, origin, strnlen(origin, STATUS_LETTERS));
    if (destination != NULL) memcpy(block + STATUS_DESTINATION, destination, strnlen(destination, STATUS_LETTERS));
    block[RIME_STATUS_OCTETS - 1] = rime_check_character(block);
}

void status_beside(uint8_t beside[STATUS_BITS], unsigned rate, unsigned bits, const char *origin,
                   const char *destination) {
    uint8_t block[RIME_STATUS_OCTETS];
    make(block, rate, bits, origin, destination);
    for (unsigned bit = 0; bit < STATUS_BITS; bit++)
        beside[bit] = (uint8_t)((bit == 0 ? B : 0) | (block[bit / 8] >> bit % 8 & 1 ? C : 0));
}
