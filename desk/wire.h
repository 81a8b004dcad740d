/*
 * A datagram of the line: cells of one circuit as a pseudowire carries them. N-to-one cell mode (RFC 4717) with the
 * control word of RFC 4385, over MPLS in UDP (RFC 7510): a label stack entry and a control word of four octets each,
 * then 52 octets a cell, its header without the check octet and its 48. Numbers have their most significant octet
 * first. docs/DESK.md has the table.
 */
#ifndef WIRE_H
#define WIRE_H

#include <stdbool.h>
#include <stddef.h>
#include <stdint.h>

#include "rimesatchel.h"

enum {
    WIRE_PORT = 6635,
    WIRE_FRONT = 8,
    WIRE_HEADER = 4,
    WIRE_CELL = WIRE_HEADER + RIME_CELL_OCTETS,
    WIRE_MOST = 28, /* cells in a datagram */
    WIRE_ROOM = WIRE_FRONT + WIRE_MOST * WIRE_CELL,
    WIRE_NUMBERS = 65535 /* sequence numbers: 1 to this, and round */
};

struct circuit {
    uint32_t label;
    uint16_t vpi, vci;
};

/* Why a datagram or a cell isn't taken; of a cell it is one of the last two. */
enum wire {
    WIRE_TAKEN,
    WIRE_STRANGER, /* by its address: not judged here */
    WIRE_FORM,
    WIRE_LABEL,
    WIRE_CONTROL,
    WIRE_UNNUMBERED,
    WIRE_FAR, /* a sequence number far ahead whose successor didn't come: order.c */
    WIRE_OTHER,
    WIRE_MANAGEMENT,
    WIRE_KINDS
};
const char *wire_words(enum wire why);

void wire_front(uint8_t to[WIRE_FRONT], const struct circuit *circuit, uint16_t sequence, unsigned cells);
void wire_cell(uint8_t to[WIRE_CELL], const struct circuit *circuit, bool indication,
               const uint8_t cell[RIME_CELL_OCTETS]);

/* Judges all of a datagram but its cells. Where it is taken, it has whole cells from WIRE_FRONT on. */
enum wire wire_datagram(const uint8_t *octets, size_t count, const struct circuit *circuit, uint16_t *sequence);
enum wire wire_header(const uint8_t header[WIRE_HEADER], const struct circuit *circuit, bool *indication);

static inline unsigned wire_cells(size_t count) {
    return (unsigned)((count - WIRE_FRONT) / WIRE_CELL);
}

/* The number so many places on, and how many places on a number is: 0 to 65534. */
static inline uint16_t wire_on(uint16_t sequence, unsigned by) {
    return (uint16_t)((sequence - 1u + by) % WIRE_NUMBERS + 1);
}

static inline unsigned wire_ahead(uint16_t from, uint16_t to) {
    return (to + (unsigned)WIRE_NUMBERS - from) % WIRE_NUMBERS;
}

#endif
