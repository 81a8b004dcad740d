/* Datagrams of the line, made and judged. Nothing that came is copied, and no length is believed before it is compared.
 */
#include "wire.h"

#include <string.h>

enum { BOTTOM = 1 << 8, TIME_TO_LIVE = 255, SHORT = 64 };

static void put(uint8_t to[4], uint32_t number) {
    for (int at = 0; at < 4; at++) to[at] = (uint8_t)(number >> (24 - 8 * at));
}

static uint32_t get(const uint8_t from[4]) {
    return (uint32_t)from[0] << 24 | (uint32_t)from[1] << 16 | (uint32_t)from[2] << 8 | from[3];
}

const char *wire_words(enum wire why) {
    static const char *const words[WIRE_KINDS] = {
        [WIRE_TAKEN] = "taken",
        [WIRE_STRANGER] = "from strangers",
        [WIRE_FORM] = "by their form",
        [WIRE_LABEL] = "by label",
        [WIRE_CONTROL] = "by control word",
        [WIRE_UNNUMBERED] = "without a sequence number",
        [WIRE_FAR] = "far ahead of all others",
        [WIRE_OTHER] = "cells of other circuits",
        [WIRE_MANAGEMENT] = "management cells",
    };
    return words[why];
}

/* RFC 4385: the length of the control word and what follows it, where that is below 64 octets, so that padding is told.
 */
void wire_front(uint8_t to[WIRE_FRONT], const struct circuit *circuit, uint16_t sequence, unsigned cells) {
    unsigned length = WIRE_FRONT / 2 + cells * WIRE_CELL;
    put(to, circuit->label << 12 | BOTTOM | TIME_TO_LIVE);
    put(to + 4, (length < SHORT ? length << 16 : 0) | sequence);
}

void wire_cell(uint8_t to[WIRE_CELL], const struct circuit *circuit, bool indication,
               const uint8_t cell[RIME_CELL_OCTETS]) {
    put(to, (uint32_t)circuit->vpi << 20 | (uint32_t)circuit->vci << 4 | (uint32_t)indication << 1);
    memcpy(to + WIRE_HEADER, cell, RIME_CELL_OCTETS);
}

enum wire wire_datagram(const uint8_t *octets, size_t count, const struct circuit *circuit, uint16_t *sequence) {
    if (count < WIRE_FRONT + WIRE_CELL || count > WIRE_ROOM || (count - WIRE_FRONT) % WIRE_CELL != 0) return WIRE_FORM;
    uint32_t entry = get(octets), control = get(octets + 4);
    if (entry >> 12 != circuit->label || (entry & BOTTOM) == 0) return WIRE_LABEL;
    if (control >> 28 != 0) return WIRE_CONTROL; /* 1 is an associated channel, which carries no cells */
    *sequence = (uint16_t)control;
    return *sequence == 0 ? WIRE_UNNUMBERED : WIRE_TAKEN;
}

/* The payload type is 1xx in a management cell; in the others its low bit is the user indication. */
enum wire wire_header(const uint8_t header[WIRE_HEADER], const struct circuit *circuit, bool *indication) {
    uint32_t word = get(header);
    if (word >> 20 != circuit->vpi || (word >> 4 & 0xFFFF) != circuit->vci) return WIRE_OTHER;
    if ((word >> 3 & 1) == 1) return WIRE_MANAGEMENT;
    *indication = (word >> 1 & 1) == 1;
    return WIRE_TAKEN;
}
