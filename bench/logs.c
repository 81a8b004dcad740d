#include "logs.h"

#include <stdbool.h>
#include <stdio.h>
#include <stdlib.h>
#include <string.h>

#include "rimesatchel.h"

enum { ROUND = 1024, LOST = 100, LOST_FROM = 300, LOST_TO = 302, TWICE = 500, SPOILED_NUMBER = 700, SPOILED_SAMPLE = 800 };

static uint64_t next_random(uint64_t *state) {
    *state = *state * UINT64_C(6364136223846793005) + UINT64_C(1442695040888963407);
    return *state >> 20;
}

static void insist(bool holds, const char *what) {
    if (holds) return;
    fprintf(stderr, "bench: a log: %s\n", what);
    exit(1);
}

/* A sender, and where it says what it sends. */
struct studio {
    uint8_t sender[RIME_SENDER_STATE];
    uint64_t samples[RIME_MOST_SLOTS];
    uint8_t ancillary[RIME_MOST_SLOTS];
    size_t entries;
};

static struct studio open_log(const struct format *format, uint8_t channels, uint8_t order, uint8_t *log) {
    struct studio studio = {.entries = format->slots / channels * channels};
    insist(rime_sender_open(format->octet, channels, order, 0, false, 0, studio.sender) == RIME_DONE, "no sender");
    const uint8_t header[HEADER_OCTETS] = {format->octet, channels, order};
    memcpy(log, header, HEADER_OCTETS);
    return studio;
}

static void send(struct studio *studio, uint8_t cell[RIME_CELL_OCTETS]) {
    uint8_t sent = rime_send(studio->sender, false, studio->samples, studio->entries, studio->ancillary, studio->entries, cell,
                             RIME_CELL_OCTETS);
    insist(sent == RIME_DONE, "no cell");
}

void make_log(const struct format *format, uint8_t channels, uint8_t order, size_t records, uint8_t *log) {
    struct studio studio = open_log(format, channels, order, log);
    uint64_t random = format->octet;
    size_t width = RIME_CELL_OCTETS / format->slots;
    uint8_t cell[RIME_CELL_OCTETS], *record = log + HEADER_OCTETS, *end = log + log_octets(records);
    for (size_t sent = 0; record < end; sent++) {
        for (size_t entry = 0; entry < studio.entries; entry++) {
            studio.samples[entry] = next_random(&random) & ((UINT64_C(1) << format->sample_bits) - 1);
            studio.ancillary[entry] = format->ancillary ? next_random(&random) % 16 : 0;
        }
        send(&studio, cell);
        size_t place = sent % ROUND;
        if (place == LOST || (place >= LOST_FROM && place <= LOST_TO)) continue;
        if (place == SPOILED_NUMBER) cell[width - 1] ^= 8;
        if (place == SPOILED_SAMPLE) cell[width] ^= 128;
        for (size_t copies = place == TWICE ? 2 : 1; copies > 0 && record < end; copies--, record += RECORD_OCTETS) {
            record[0] = 0;
            memcpy(record + 1, cell, sizeof cell);
        }
    }
}

void make_silence(const struct format *format, uint8_t channels, uint8_t order, size_t records, uint8_t *log) {
    struct studio studio = open_log(format, channels, order, log);
    for (uint8_t *record = log + HEADER_OCTETS; record < log + log_octets(records); record += RECORD_OCTETS) {
        record[0] = 0;
        send(&studio, record + 1);
    }
}
