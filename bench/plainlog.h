/*
 * What the plain programs share that read a log: the formats, a cell's number, a subframe's protection bits, and what a receiver
 * makes of a record.
 */
#ifndef PLAINLOG_H
#define PLAINLOG_H

#include <stdbool.h>
#include <stdint.h>

enum { PLAIN_CELL = 48, PLAIN_RECORD = 1 + PLAIN_CELL };

struct plain_format {
    unsigned octets_a_slot, slots, sample_bits;
    bool ancillary, overhead;
};

/* No slots where the octet is none of the fourteen. */
static inline struct plain_format plain_format_of(unsigned octet) {
    switch (octet) {
    case 0x02: return (struct plain_format){1, 48, 8, false, false};
    case 0x04: return (struct plain_format){2, 24, 16, false, false};
    case 0x06: return (struct plain_format){3, 16, 24, false, false};
    case 0x08: return (struct plain_format){4, 12, 32, false, false};
    case 0x43: return (struct plain_format){2, 24, 12, true, false};
    case 0x45: return (struct plain_format){3, 16, 20, true, false};
    case 0x47: return (struct plain_format){4, 12, 28, true, false};
    case 0x13: return (struct plain_format){2, 24, 12, false, true};
    case 0x15: return (struct plain_format){3, 16, 20, false, true};
    case 0x17: return (struct plain_format){4, 12, 28, false, true};
    case 0x52: return (struct plain_format){2, 24, 8, true, true};
    case 0x54: return (struct plain_format){3, 16, 16, true, true};
    case 0x56: return (struct plain_format){4, 12, 24, true, true};
    case 0x5A: return (struct plain_format){6, 8, 40, true, true};
    default: return (struct plain_format){0, 0, 0, false, false};
    }
}

/* 1, 2 and 3 for the octet, the channels and the order of a header, or 0. */
static inline unsigned plain_settings(struct plain_format format, unsigned channels, unsigned order) {
    if (format.slots == 0) return 1;
    if (channels == 0 || channels > format.slots) return 2;
    return order > 1 ? 3 : 0;
}

/* Table A.1; the first bit sent is the top one. */
static const uint8_t plain_number_words[16] = {
    0x0F, 0x84, 0x41, 0xCA, 0x22, 0xA9, 0x6C, 0xE7, 0x18, 0x93, 0x56, 0xDD, 0x35, 0xBE, 0x7B, 0xF0,
};

/* The cell's number, or 16 where its eight bits aren't in the table. */
static inline unsigned plain_number(struct plain_format format, const uint8_t *cell) {
    unsigned word = 0;
    for (unsigned slot = 0; slot < 8; slot++) word = word << 1 | (cell[(slot + 1) * format.octets_a_slot - 1] >> 3 & 1);
    for (unsigned number = 0; number < 16; number++) {
        if (plain_number_words[number] == word) return number;
    }
    return 16;
}

static inline uint64_t plain_subframe(struct plain_format format, const uint8_t *cell, unsigned slot) {
    uint64_t subframe = 0;
    for (unsigned i = 0; i < format.octets_a_slot; i++) subframe = subframe << 8 | cell[slot * format.octets_a_slot + i];
    return subframe;
}

static inline uint64_t plain_sample(struct plain_format format, uint64_t subframe) {
    return subframe >> 4 * (format.ancillary + format.overhead);
}

/* The complement of the remainder by x^3 + x + 1 of x^3 times ten bits at most: nine of the sample, and V where there is one. */
static inline unsigned plain_protection(unsigned ten) {
    unsigned rest = ten << 3;
    for (int bit = 12; bit >= 3; bit--) {
        if (rest >> bit & 1) rest ^= 11u << (bit - 3);
    }
    return ~rest & 7;
}

/* Whether the three protection bits of a subframe with overhead disagree. */
static inline bool plain_is_spoiled(struct plain_format format, uint64_t subframe) {
    unsigned nine = (unsigned)(plain_sample(format, subframe) << 9 >> format.sample_bits) & 511;
    unsigned valid = (unsigned)(subframe >> 4) & 1;
    return plain_protection(format.ancillary ? nine << 1 | valid : nine) != (subframe & 7);
}

/* One of the first `used` slots has a sample marked 0 that isn't zero. */
static inline bool plain_sounds(struct plain_format format, unsigned used, const uint8_t *cell) {
    for (unsigned slot = 0; slot < used; slot++) {
        uint64_t subframe = plain_subframe(format, cell, slot);
        if (plain_sample(format, subframe) == 0) continue;
        if (!format.overhead || !plain_is_spoiled(format, subframe)) return true;
    }
    return false;
}

/* A receiver that is fresh before a log's first record, and what it makes of the next one: 0, 8, 15 or 9, in this order. */
struct plain_receiver {
    struct plain_format format;
    bool started;
    unsigned last;
};

struct plain_heard {
    unsigned refusal, missing, number;
};

static inline struct plain_heard plain_hear(struct plain_receiver *receiver, const uint8_t *record) {
    if (!receiver->format.overhead) return (struct plain_heard){0, 0, 0};
    unsigned number = plain_number(receiver->format, record + 1);
    unsigned missing = receiver->started ? (number - receiver->last - 1) & 15 : 0;
    if (number == 16) return (struct plain_heard){8, 0, 0};
    if (record[0] == 1 && number % 8 != 0) return (struct plain_heard){15, 0, 0};
    if (missing == 15) return (struct plain_heard){9, 0, 0};
    receiver->started = true;
    receiver->last = number;
    return (struct plain_heard){0, missing, number};
}

#endif
