/*
 * Packing and unpacking as a good embedded engineer writes them: one generic loop over the slots for every format, a
 * protection table of 512 octets with V and one without, all of the refusals. The proved functions are measured against
 * these.
 */
#include "plain.h"

#include <string.h>

#include "rimesatchel.h"

/* gcc would clone a function for the constants that its caller passes, and look faster than it is in use. */
#define MEASURED __attribute__((noipa))

/* What a subframe octet says; no slots where it is none of the fourteen. */
struct format {
    uint8_t sample_bits, slots;
    bool ancillary, overhead;
};

struct layout {
    struct format format;
    size_t channels, times, entries, octets;
    bool by_channel;
};

/* Table A.1; the first bit sent is the top one. */
static const uint8_t number_words[16] = {
    0x0F, 0x84, 0x41, 0xCA, 0x22, 0xA9, 0x6C, 0xE7, 0x18, 0x93, 0x56, 0xDD, 0x35, 0xBE, 0x7B, 0xF0,
};

static const uint8_t turned[16] = {0, 8, 4, 12, 2, 10, 6, 14, 1, 9, 5, 13, 3, 11, 7, 15};

/*
 * x^(3+k) modulo x^3 + x + 1 for the ten bits k of the nine at a sample's top and V. The second table is for V = 0; where
 * there is no V at all the nine stand one place lower, as in the first.
 */
#define BIT(n, k, remainder) ((n) >> (k) & 1 ? (remainder) : 0)
#define P1(n)                                                                                                     \
    (7 ^ BIT(n, 0, 3) ^ BIT(n, 1, 6) ^ BIT(n, 2, 7) ^ BIT(n, 3, 5) ^ BIT(n, 4, 1) ^ BIT(n, 5, 2) ^ BIT(n, 6, 4) ^ \
     BIT(n, 7, 3) ^ BIT(n, 8, 6) ^ BIT(n, 9, 7))
#define P4(n, step) P1(n), P1((n) + (step)), P1((n) + 2 * (step)), P1((n) + 3 * (step))
#define P16(n, step) P4(n, step), P4((n) + 4 * (step), step), P4((n) + 8 * (step), step), P4((n) + 12 * (step), step)
#define P64(n, step) P16(n, step), P16((n) + 16 * (step), step), P16((n) + 32 * (step), step), P16((n) + 48 * (step), step)
#define P256(n, step) P64(n, step), P64((n) + 64 * (step), step), P64((n) + 128 * (step), step), P64((n) + 192 * (step), step)
#define P512(step) P256(0, step), P256(256 * (step), step)
static const uint8_t protections[2][512] = {{P512(1)}, {P512(2)}};
#define REMAINDER_OF_V 3

static struct format format_of(uint8_t octet) {
    switch (octet) {
    case 0x02: return (struct format){8, 48, false, false};
    case 0x04: return (struct format){16, 24, false, false};
    case 0x06: return (struct format){24, 16, false, false};
    case 0x08: return (struct format){32, 12, false, false};
    case 0x43: return (struct format){12, 24, true, false};
    case 0x45: return (struct format){20, 16, true, false};
    case 0x47: return (struct format){28, 12, true, false};
    case 0x13: return (struct format){12, 24, false, true};
    case 0x15: return (struct format){20, 16, false, true};
    case 0x17: return (struct format){28, 12, false, true};
    case 0x52: return (struct format){8, 24, true, true};
    case 0x54: return (struct format){16, 16, true, true};
    case 0x56: return (struct format){24, 12, true, true};
    case 0x5A: return (struct format){40, 8, true, true};
    default: return (struct format){0, 0, false, false};
    }
}

/* Checks 1 to 3 of the three octets that both states begin with. */
static uint8_t layout_of(const uint8_t *state, struct layout *layout) {
    struct format format = format_of(state[RIME_SENDER_FORMAT]);
    if (format.slots == 0) return RIME_REFUSED_FORMAT;
    size_t channels = state[RIME_SENDER_CHANNELS];
    if (channels == 0 || channels > format.slots) return RIME_REFUSED_CHANNELS;
    if (state[RIME_SENDER_ORDER] > 1) return RIME_REFUSED_ORDER;
    size_t times = format.slots / channels;
    *layout = (struct layout){.format = format,
                              .channels = channels,
                              .times = times,
                              .entries = channels * times,
                              .octets = RIME_CELL_OCTETS / format.slots,
                              .by_channel = state[RIME_SENDER_ORDER] == 1};
    return RIME_DONE;
}

/* The entry of the slot at hand, brought forward from slot to slot without a division. */
struct cursor {
    size_t entry, time, channel;
};

static inline void advance(struct cursor *cursor, const struct layout *layout) {
    if (!layout->by_channel) {
        cursor->entry++;
    } else if (++cursor->time < layout->times) {
        cursor->entry += layout->channels;
    } else {
        cursor->time = 0;
        cursor->entry = ++cursor->channel;
    }
}

static inline uint8_t protection(struct format format, uint64_t sample, uint8_t ancillary) {
    uint64_t nine = format.sample_bits == 8 ? sample << 1 : sample >> (format.sample_bits - 9);
    return protections[format.ancillary][nine] ^ (ancillary & 1 ? REMAINDER_OF_V : 0);
}

static uint8_t check_sender(const uint8_t *state, struct layout *layout) {
    uint8_t refusal = layout_of(state, layout);
    if (refusal != RIME_DONE) return refusal;
    uint8_t second = state[RIME_SENDER_SECOND];
    bool wanted = state[RIME_SENDER_WANTED] != 0;
    bool can_have = layout->format.overhead && layout->format.slots >= 12;
    if (state[RIME_SENDER_NUMBER] > 15 || second > 15) return RIME_REFUSED_STATE;
    if (wanted ? !can_have : second != 0) return RIME_REFUSED_STATE;
    return RIME_DONE;
}

static bool fit(const struct layout *layout, const uint64_t *samples, const uint8_t *ancillary) {
    uint64_t all_samples = 0;
    uint8_t all_ancillary = 0;
    for (size_t entry = 0; entry < layout->entries; entry++) {
        all_samples |= samples[entry];
        all_ancillary |= ancillary[entry];
    }
    return all_samples >> layout->format.sample_bits == 0 && all_ancillary <= (layout->format.ancillary ? 15 : 0);
}

static void pack(const struct layout *layout, uint32_t sequencing, const uint64_t *samples, const uint8_t *ancillary,
                 uint8_t *cell) {
    const struct format format = layout->format;
    struct cursor cursor = {0, 0, 0};
    for (size_t slot = 0; slot < format.slots; slot++) {
        bool used = slot < layout->entries;
        uint64_t sample = used ? samples[cursor.entry] : 0;
        uint8_t four = used ? ancillary[cursor.entry] : 0;
        uint64_t word = format.ancillary ? sample << 4 | four : sample;
        if (format.overhead) {
            word = word << 4 | (sequencing >> 31) << 3 | protection(format, sample, four);
            sequencing <<= 1;
        }
        for (size_t octet = layout->octets; octet-- > 0;) *cell++ = (uint8_t)(word >> 8 * octet);
        advance(&cursor, layout);
    }
}

MEASURED uint8_t plain_send(uint8_t state[7], bool indication, const uint64_t *samples, size_t samples_len,
                            const uint8_t *ancillary, size_t ancillary_len, uint8_t *cell, size_t cell_len) {
    struct layout layout;
    uint8_t refusal = check_sender(state, &layout);
    if (refusal != RIME_DONE) return refusal;
    if (cell_len != RIME_CELL_OCTETS) return RIME_REFUSED_LENGTH;
    if (samples_len != layout.entries || ancillary_len != layout.entries) return RIME_REFUSED_LENGTH;
    if (!fit(&layout, samples, ancillary)) return RIME_REFUSED_SAMPLE;
    uint8_t number = state[RIME_SENDER_NUMBER];
    if (indication && number % 8 != 0) return RIME_REFUSED_INDICATION;
    bool wanted = state[RIME_SENDER_WANTED] != 0;
    bool counts = wanted && indication && state[RIME_SENDER_SENT] != 0;
    uint8_t second = (state[RIME_SENDER_SECOND] + counts) % 16;
    pack(&layout, (uint32_t)number_words[number] << 24 | (uint32_t)turned[second] << 20, samples, ancillary, cell);
    state[RIME_SENDER_NUMBER] = (number + 1) % 16;
    state[RIME_SENDER_WANTED] = wanted;
    state[RIME_SENDER_SECOND] = second;
    state[RIME_SENDER_SENT] = true;
    return RIME_DONE;
}

/* Cells placed since the opening: four octets, least significant first. */
static uint32_t count_of(const uint8_t *state) {
    const uint8_t *octets = state + RIME_RECEIVER_COUNT;
    return octets[0] | octets[1] << 8 | octets[2] << 16 | (uint32_t)octets[3] << 24;
}

static uint8_t check_receiver(const uint8_t *state, struct layout *layout) {
    uint8_t refusal = layout_of(state, layout);
    if (refusal != RIME_DONE) return refusal;
    uint8_t last = state[RIME_RECEIVER_LAST];
    bool may_count = state[RIME_RECEIVER_STARTED] != 0 && layout->format.overhead;
    if (last > (may_count ? 15 : 0)) return RIME_REFUSED_STATE;
    return state[RIME_RECEIVER_STARTED] == 0 && count_of(state) != 0 ? RIME_REFUSED_STATE : RIME_DONE;
}

/* The first twelve sequencing bits, the first one on top; the cell has overhead. With S = 8 the last four are 0. */
static unsigned sequencing_bits(const struct layout *layout, const uint8_t *cell) {
    size_t bits = layout->format.slots < 12 ? 8 : 12;
    unsigned word = 0;
    for (size_t slot = 0; slot < bits; slot++) word = word << 1 | (cell[(slot + 1) * layout->octets - 1] >> 3 & 1);
    return word << (12 - bits);
}

static void unpack(const struct layout *layout, const uint8_t *cell, uint64_t *samples, uint8_t *ancillary,
                   uint8_t *marks) {
    const struct format format = layout->format;
    struct cursor cursor = {0, 0, 0};
    for (size_t slot = 0; slot < layout->entries; slot++) {
        uint64_t word = 0;
        for (size_t octet = 0; octet < layout->octets; octet++) word = word << 8 | *cell++;
        uint8_t received = word & 7;
        if (format.overhead) word >>= 4;
        uint8_t four = format.ancillary ? word & 15 : 0;
        uint64_t sample = format.ancillary ? word >> 4 : word;
        samples[cursor.entry] = sample;
        ancillary[cursor.entry] = four;
        marks[cursor.entry] = format.overhead && received != protection(format, sample, four);
        advance(&cursor, layout);
    }
}

MEASURED uint8_t plain_receive(uint8_t state[9], const uint8_t *cell, size_t cell_len, bool indication,
                               uint64_t *samples, size_t samples_len, uint8_t *ancillary, size_t ancillary_len,
                               uint8_t *marks, size_t marks_len, uint8_t report[4]) {
    struct layout layout;
    memset(report, 0, RIME_REPORT);
    uint8_t refusal = check_receiver(state, &layout);
    if (refusal != RIME_DONE) return refusal;
    if (cell_len != RIME_CELL_OCTETS || samples_len != ancillary_len || samples_len != marks_len)
        return RIME_REFUSED_LENGTH;
    uint8_t number = 0, second = 0;
    if (layout.format.overhead) {
        unsigned word = sequencing_bits(&layout, cell);
        number = turned[word >> 8];
        second = turned[word & 15];
        if (number_words[number] != word >> 4) return RIME_REFUSED_NUMBER;
        if (indication && number % 8 != 0) return RIME_REFUSED_INDICATED;
    }
    bool counts = layout.format.overhead && state[RIME_RECEIVER_STARTED] != 0;
    size_t steps = counts ? (size_t)(number - state[RIME_RECEIVER_LAST]) % 16 : 1;
    if (steps == 0) return RIME_REFUSED_REPEAT;
    uint64_t count = count_of(state) + (uint64_t)steps;
    if (count > UINT32_MAX) return RIME_REFUSED_COUNT;
    if (samples_len < steps * layout.entries) return RIME_REFUSED_ROOM;
    size_t missing = (steps - 1) * layout.entries;
    memset(samples, 0, missing * sizeof *samples);
    memset(ancillary, 0, missing);
    memset(marks, RIME_MARK_MISSING, missing);
    unpack(&layout, cell, samples + missing, ancillary + missing, marks + missing);
    state[RIME_RECEIVER_STARTED] = true;
    state[RIME_RECEIVER_LAST] = number;
    for (int octet = 0; octet < 4; octet++) state[RIME_RECEIVER_COUNT + octet] = (uint8_t)(count >> 8 * octet);
    report[RIME_REPORT_MISSING] = (uint8_t)(steps - 1);
    report[RIME_REPORT_NUMBER] = number;
    report[RIME_REPORT_SECOND] = second;
    report[RIME_REPORT_INDICATION] = indication;
    return RIME_DONE;
}

/* Slots 4 to 31 of a subframe hold sample, V, U, C and what makes their count of ones even. */
MEASURED uint8_t plain_aes3_import(const uint8_t preambles[2], const uint32_t subframes[2], uint64_t samples[2],
                                   uint8_t ancillary[2]) {
    samples[0] = samples[1] = ancillary[0] = ancillary[1] = 0;
    bool begins = preambles[0] == 'Z';
    if ((preambles[0] != 'X' && !begins) || preambles[1] != 'Y') return RIME_REFUSED_PREAMBLES;
    if (__builtin_parity(subframes[0] >> 4) || __builtin_parity(subframes[1] >> 4)) return RIME_REFUSED_PARITY;
    for (size_t half = 0; half < 2; half++) {
        samples[half] = subframes[half] >> 4 & 0xFFFFFF;
        ancillary[half] = (uint8_t)(begins << 3 | (subframes[half] >> 28 & 7));
    }
    return RIME_DONE;
}

MEASURED uint8_t plain_aes3_export(const uint64_t samples[2], const uint8_t ancillary[2], uint8_t preambles[2],
                                   uint32_t subframes[2]) {
    preambles[0] = preambles[1] = 0;
    subframes[0] = subframes[1] = 0;
    if ((samples[0] | samples[1]) >> 24 || (ancillary[0] | ancillary[1]) >> 4) return RIME_REFUSED_SAMPLE;
    if ((ancillary[0] ^ ancillary[1]) >> 3) return RIME_REFUSED_BLOCKS;
    preambles[0] = ancillary[0] >> 3 ? 'Z' : 'X';
    preambles[1] = 'Y';
    for (size_t half = 0; half < 2; half++) {
        uint32_t word = (uint32_t)samples[half] << 4 | (uint32_t)(ancillary[half] & 7) << 28;
        subframes[half] = word | (uint32_t)__builtin_parity(word) << 31;
    }
    return RIME_DONE;
}

/* A format by a number that may be no octet. */
static struct format format_told(uint32_t octet) { return octet > UINT8_MAX ? format_of(0) : format_of((uint8_t)octet); }

MEASURED uint8_t plain_units_export(uint32_t octet, uint32_t channels, size_t size, const uint64_t *samples,
                                    size_t samples_len, const uint8_t *ancillary, size_t ancillary_len, uint8_t *out,
                                    size_t out_len, uint64_t units[3]) {
    const struct format format = format_told(octet);
    memset(units, 0, 3 * sizeof *units);
    if (format.slots == 0) return RIME_REFUSED_FORMAT;
    if (channels == 0 || channels > format.slots) return RIME_REFUSED_CHANNELS;
    if (samples_len != ancillary_len || samples_len % channels != 0) return RIME_REFUSED_LENGTH;
    const struct layout layout = {.format = format, .entries = samples_len};
    if (!fit(&layout, samples, ancillary)) return RIME_REFUSED_SAMPLE;
    if (format.overhead) return RIME_REFUSED_OVERHEAD;
    size_t octets = RIME_CELL_OCTETS / format.slots, frame = channels * octets;
    if (size < frame) return RIME_REFUSED_UNIT_SIZE;
    if (out_len < samples_len * octets) return RIME_REFUSED_UNIT_ROOM;
    for (size_t entry = 0; entry < samples_len; entry++) {
        uint64_t word = format.ancillary ? samples[entry] << 4 | ancillary[entry] : samples[entry];
        for (size_t left = octets; left-- > 0;) *out++ = (uint8_t)(word >> 8 * left);
    }
    size_t frames = samples_len / channels, in_full = size / frame;
    units[RIME_UNITS_OCTETS] = samples_len * octets;
    units[RIME_UNITS_FULL] = in_full * frame;
    units[RIME_UNITS_COUNT] = frames / in_full + (frames % in_full != 0);
    return RIME_DONE;
}

MEASURED uint8_t plain_unit_read(uint32_t octet, uint32_t channels, const uint8_t *unit, size_t unit_len,
                                 uint64_t *samples, size_t samples_len, uint8_t *ancillary, size_t ancillary_len,
                                 uint64_t *entries) {
    const struct format format = format_told(octet);
    *entries = 0;
    if (format.slots == 0) return RIME_REFUSED_FORMAT;
    if (channels == 0 || channels > format.slots) return RIME_REFUSED_CHANNELS;
    size_t octets = RIME_CELL_OCTETS / format.slots, frame = channels * octets;
    if (samples_len != ancillary_len || unit_len == 0 || unit_len % frame != 0) return RIME_REFUSED_LENGTH;
    if (format.overhead) return RIME_REFUSED_OVERHEAD;
    size_t count = unit_len / octets;
    if (samples_len < count) return RIME_REFUSED_UNIT_ROOM;
    for (size_t entry = 0; entry < count; entry++) {
        uint64_t word = 0;
        for (size_t octet = 0; octet < octets; octet++) word = word << 8 | *unit++;
        samples[entry] = format.ancillary ? word >> 4 : word;
        ancillary[entry] = format.ancillary ? word & 15 : 0;
    }
    *entries = count;
    return RIME_DONE;
}
