/*
 * Calls that go through a whole log, beside plain C, on one log of 1,024 records. A sheet is counted in every format with two
 * channels and with five, in both orders; the others go through every format with two channels in order 0. For rime_anything the
 * log is silence: it stops at the first sample that isn't. rime_send_log, which writes a log, stands beside single calls.
 */
#include "walks.h"

#include <stdbool.h>
#include <stdint.h>
#include <stdio.h>
#include <stdlib.h>
#include <string.h>
#include <time.h>

#include "counting.h"
#include "formats.h"
#include "logs.h"
#include "plainsheet.h"
#include "plainwalks.h"
#include "rimesatchel.h"

enum { RECORDS = 1024, CALLS = 16, REPEATS = 60, CHANNELS = 2, ORDERS = 2, LOG_OCTETS = HEADER_OCTETS + RECORDS * RECORD_OCTETS };

static const uint8_t channels_of[CHANNELS] = {2, 5};

/* All that a call leaves. */
struct left {
    uint64_t numbers[RIME_SHEET_ROW];
    uint8_t octets[LOG_OCTETS];
    uint64_t list[2 * RECORDS];
};

typedef void walk_function(struct left *);
typedef void log_function(const struct format *, uint8_t, uint8_t, size_t, uint8_t *);

struct kind {
    const char *name;
    walk_function *by_library, *by_plain;
    log_function *make;
    bool all; /* other channels and the other order too */
};

struct row {
    const struct kind *kind;
    const struct format *format;
    uint8_t channels, order;
};

static uint8_t log_of_row[LOG_OCTETS];

static void insist(bool holds) {
    if (!holds) exit(1);
}

static void sheet_by_library(struct left *left) {
    uint32_t rows[RIME_SHEET_ROW], totals[RIME_SHEET_ROW];
    uint64_t length = LOG_OCTETS;
    insist(rime_sheet(log_of_row, LOG_OCTETS, &length, 1, rows, RIME_SHEET_ROW, totals) == RIME_DONE);
    for (size_t column = 0; column < RIME_SHEET_PER_MILLION; column++) left->numbers[column] = totals[column];
}

static void sheet_by_plain(struct left *left) {
    memset(left->numbers, 0, sizeof left->numbers);
    plain_figures(log_of_row, LOG_OCTETS, left->numbers);
}

static void anything_by_library(struct left *left) {
    insist(rime_anything(log_of_row, LOG_OCTETS, left->numbers) == RIME_DONE);
}

static void anything_by_plain(struct left *left) { plain_anything(log_of_row, LOG_OCTETS, left->numbers); }

static void list_by_library(struct left *left) {
    uint64_t listed[RIME_LISTED];
    insist(rime_log_list(log_of_row, LOG_OCTETS, left->octets, LOG_OCTETS, listed) == RIME_DONE && listed[RIME_LISTED_WHOLE] == 1);
    left->numbers[0] = listed[RIME_LISTED_OCTETS];
}

static void list_by_plain(struct left *left) {
    left->numbers[0] = plain_list(log_of_row, LOG_OCTETS, (char *)left->octets, LOG_OCTETS);
}

static void salvage_by_library(struct left *left) {
    insist(rime_salvage(log_of_row, LOG_OCTETS, left->octets, LOG_OCTETS, left->list, 2 * RECORDS, left->numbers) == RIME_DONE);
}

static void salvage_by_plain(struct left *left) {
    insist(plain_salvage(log_of_row, LOG_OCTETS, left->octets, LOG_OCTETS, left->list, 2 * RECORDS, left->numbers) == 0);
}

static struct {
    const struct format *format;
    uint8_t channels, order;
    size_t used; /* entries in a cell */
    uint64_t samples[RECORDS * RIME_MOST_SLOTS];
    uint8_t ancillary[RECORDS * RIME_MOST_SLOTS];
} sent;

/* What is sent, in place of a log. */
static void make_entries(const struct format *format, uint8_t channels, uint8_t order, size_t records, uint8_t *log) {
    (void)log;
    sent.format = format, sent.channels = channels, sent.order = order;
    sent.used = (size_t)(format->slots / channels) * channels;
    uint64_t number = 1;
    for (size_t entry = 0; entry < records * sent.used; entry++) {
        number = number * 6364136223846793005 + 1442695040888963407;
        sent.samples[entry] = number >> (64 - format->sample_bits);
        sent.ancillary[entry] = format->ancillary ? number >> 16 & 15 : 0;
    }
}

static void open_sender(uint8_t state[RIME_SENDER_STATE]) {
    insist(rime_sender_open(sent.format->octet, sent.channels, sent.order, 0, false, 0, state) == RIME_DONE);
}

static void send_by_library(struct left *left) {
    uint8_t state[RIME_SENDER_STATE];
    uint64_t counts[RIME_SENT_LOG];
    size_t entries = RECORDS * sent.used;
    open_sender(state);
    insist(rime_send_log(state, true, sent.samples, entries, sent.ancillary, entries, left->octets, LOG_OCTETS, HEADER_OCTETS,
                         counts) == RIME_DONE);
    left->numbers[0] = counts[RIME_SENT_CELLS];
}

static void send_by_calls(struct left *left) {
    uint8_t state[RIME_SENDER_STATE], cell[RIME_CELL_OCTETS];
    uint64_t next = HEADER_OCTETS;
    open_sender(state);
    for (size_t record = 0; record < RECORDS; record++) {
        bool indication = record % 8 == 0;
        size_t at = record * sent.used;
        insist(rime_send(state, indication, sent.samples + at, sent.used, sent.ancillary + at, sent.used, cell, sizeof cell) ==
               RIME_DONE);
        insist(rime_log_put_record(left->octets, LOG_OCTETS, next, cell, sizeof cell, indication, &next) == RIME_DONE);
    }
    left->numbers[0] = RECORDS;
}

static const struct kind kinds[] = {
    {"sheet", sheet_by_library, sheet_by_plain, make_log, true},
    {"anything", anything_by_library, anything_by_plain, make_silence, false},
    {"list", list_by_library, list_by_plain, make_log, false},
    {"salvage", salvage_by_library, salvage_by_plain, make_log, false},
    {"send_log", send_by_library, send_by_calls, make_entries, false},
};

enum { KINDS = sizeof kinds / sizeof *kinds };

static void name_of(const struct row *row, char *name, size_t size) {
    snprintf(name, size, "%s-%02X-C%u-order%u", row->kind->name, row->format->octet, row->channels, row->order);
}

static void check_agreement(const struct row *row) {
    static struct left proved, plain;
    memset(&proved, 0, sizeof proved);
    memset(&plain, 0, sizeof plain);
    row->kind->make(row->format, row->channels, row->order, RECORDS, log_of_row);
    row->kind->by_library(&proved);
    row->kind->by_plain(&plain);
    /* snprintf ends its text with a zero, which is past the list */
    if (memcmp(&proved, &plain, sizeof plain) == 0 && (plain.numbers[0] > 0 || plain.numbers[1] == RECORDS)) return;
    char name[64];
    name_of(row, name, sizeof name);
    fprintf(stderr, "bench: %s: plain and proved differ\n", name);
    exit(1);
}

static double now(void) {
    struct timespec time;
    clock_gettime(CLOCK_MONOTONIC, &time);
    return 1e9 * (double)time.tv_sec + (double)time.tv_nsec;
}

/* Nanoseconds of one record. */
static void time_walk(walk_function *function, double *least) {
    static struct left left;
    double start = now();
    function(&left);
    double spent = (now() - start) / RECORDS;
    if (spent < *least) *least = spent;
}

__attribute__((noipa)) static void copy(uint8_t *to, const uint8_t *from, size_t octets) { memcpy(to, from, octets); }

static void time_copy(double *least) {
    static uint8_t to[LOG_OCTETS];
    double start = now();
    copy(to, log_of_row, sizeof to);
    double spent = (now() - start) / RECORDS;
    if (spent < *least) *least = spent;
}

static void measure(const struct row *row, const char *name) {
    double proved_ns = 1e9, plain_ns = 1e9, copy_ns = 1e9;
    for (size_t repeat = 0; repeat < REPEATS; repeat++) {
        time_walk(row->kind->by_library, &proved_ns);
        time_walk(row->kind->by_plain, &plain_ns);
        time_copy(&copy_ns);
    }
    printf("%s %.1f %.1f %.1f\n", name, proved_ns, plain_ns, copy_ns);
}

/* What callgrind counts. */
__attribute__((noipa)) static void counted(walk_function *function, size_t calls) {
    static struct left left;
    for (size_t call = 0; call < calls; call++) function(&left);
}

static void count(const struct row *row, const char *name) {
    walk_function *both[] = {row->kind->by_library, row->kind->by_plain};
    for (size_t which = 0; which < 2; which++) {
        COUNTED(counted(both[which], CALLS));
        COUNTED(counted(both[which], 2 * CALLS));
    }
    puts(name);
}

static void one_row(const char *word, const struct row *row, const regex_t *pattern) {
    char name[64];
    name_of(row, name, sizeof name);
    if (regexec(pattern, name, 0, NULL, 0) != 0) return;
    if (strcmp(word, "rows") == 0) {
        puts(name);
        return;
    }
    check_agreement(row);
    if (strcmp(word, "times") == 0)
        measure(row, name);
    else
        count(row, name);
}

static void rows_of(const char *word, const struct kind *kind, const struct format *format, const regex_t *pattern) {
    for (size_t choice = 0; choice < (kind->all ? CHANNELS : 1); choice++)
        for (uint8_t order = 0; order < (kind->all ? ORDERS : 1); order++) {
            const struct row row = {kind, format, channels_of[choice], order};
            one_row(word, &row, pattern);
        }
}

void walks_rows(const char *word, const regex_t *pattern) {
    for (size_t kind = 0; kind < KINDS; kind++)
        for (size_t at = 0; at < FORMATS; at++) rows_of(word, &kinds[kind], &formats[at], pattern);
}
