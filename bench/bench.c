/*
 * The proved sender and receiver, the AES3 cable's calls (frames.c) and the data units' calls (units.c), beside the baseline of
 * plain.c, and calls that go through a log (walks.c) beside plainsheet.c and plainwalks.c, in one process.
 *
 *   bench rows                the rows' names, one a line
 *   bench times [ROWS]        ns per cell of each row: the least of many batches, the two taking turns
 *   bench count [ROWS]        a few calls of each row, for callgrind to count their instructions (bench/run.py reads them)
 *
 * ROWS is a pattern that picks rows by their names. Before anything is measured, both must leave the same octets on
 * every row.
 */
#include <inttypes.h>
#include <regex.h>
#include <stdio.h>
#include <stdlib.h>
#include <string.h>
#include <time.h>

#include "counting.h"
#include "formats.h"
#include "frames.h"
#include "plain.h"
#include "rimesatchel.h"
#include "units.h"
#include "walks.h"

enum { CELLS = 16, BATCH = 10 * CELLS, REPEATS = 1000, MOST_ENTRIES = 15 * RIME_MOST_SLOTS };

typedef uint8_t send_function(uint8_t *, bool, const uint64_t *, size_t, const uint8_t *, size_t, uint8_t *, size_t);
typedef uint8_t receive_function(uint8_t *, const uint8_t *, size_t, bool, uint64_t *, size_t, uint8_t *, size_t,
                                 uint8_t *, size_t, uint8_t *);

struct row {
    bool unpacks;
    uint8_t format, channels, order;
    uint8_t gap; /* cells missing before each cell that is unpacked */
};

struct who {
    send_function *send;
    receive_function *receive;
};

static const struct who proved = {rime_send, rime_receive};
static const struct who plain = {plain_send, plain_receive};

/* All that one row's calls are lent. */
struct bench {
    struct row row;
    size_t entries, room;
    uint8_t sender[RIME_SENDER_STATE], receiver[RIME_RECEIVER_STATE], report[RIME_REPORT];
    uint8_t cells[CELLS][RIME_CELL_OCTETS];
    uint64_t samples[MOST_ENTRIES];
    uint8_t ancillary[MOST_ENTRIES], marks[MOST_ENTRIES];
};

enum { CHANNELS = 4, ORDERS = 2, GAP_CHANNELS = 2 };
enum { MOST_ROWS = FORMATS * ORDERS * (2 * CHANNELS + 1) };

/* One channel, two, five and as many as there are slots. With two, a line with the longest gap too. */
static size_t rows_of(const struct format *format, bool unpacks, struct row *rows) {
    const uint8_t channels[CHANNELS] = {1, 2, 5, format->slots};
    size_t count = 0;
    for (size_t choice = 0; choice < CHANNELS; choice++)
        for (uint8_t order = 0; order < ORDERS && channels[choice] <= format->slots; order++)
            rows[count++] = (struct row){unpacks, format->octet, channels[choice], order, 0};
    for (uint8_t order = 0; order < ORDERS && unpacks && format->overhead; order++)
        rows[count++] = (struct row){unpacks, format->octet, GAP_CHANNELS, order, RIME_MOST_MISSING};
    return count;
}

static size_t all_rows(struct row *rows) {
    size_t count = 0;
    for (size_t at = 0; at < FORMATS; at++) count += rows_of(&formats[at], false, rows + count);
    for (size_t at = 0; at < FORMATS; at++) count += rows_of(&formats[at], true, rows + count);
    return count;
}

static void name_of(const struct row *row, char *name, size_t size) {
    snprintf(name, size, "%s-%02X-C%u-order%u%s", row->unpacks ? "unpack" : "pack", row->format, row->channels,
             row->order, row->gap ? "-gap14" : "");
}

static void name_row(const struct row *row) {
    char name[64];
    name_of(row, name, sizeof name);
    puts(name);
}

static uint64_t next_random(uint64_t *state) {
    *state = *state * UINT64_C(6364136223846793005) + UINT64_C(1442695040888963407);
    return *state >> 20;
}

static void insist(bool holds, const struct row *row, const char *what) {
    if (holds) return;
    char name[64];
    name_of(row, name, sizeof name);
    fprintf(stderr, "bench: %s: %s\n", name, what);
    exit(1);
}

/* Fills the runs and, with the proved sender, sixteen cells numbered 0 to 15. */
static void prepare(struct bench *bench, const struct row *row) {
    memset(bench, 0, sizeof *bench);
    const struct format *format = format_of(row->format);
    bench->row = *row;
    bench->entries = format->slots / row->channels * row->channels;
    bench->room = bench->entries * (row->gap + 1u);
    uint8_t opened = rime_sender_open(row->format, row->channels, row->order, 0, false, 0, bench->sender);
    insist(opened == RIME_DONE, row, "no sender");
    opened = rime_receiver_open(row->format, row->channels, row->order, bench->receiver);
    insist(opened == RIME_DONE, row, "no receiver");
    uint64_t random = row->format;
    for (size_t cell = 0; cell < CELLS; cell++) {
        for (size_t entry = 0; entry < bench->entries; entry++) {
            bench->samples[entry] = next_random(&random) & ((UINT64_C(1) << format->sample_bits) - 1);
            bench->ancillary[entry] = format->ancillary ? next_random(&random) % 16 : 0;
        }
        uint8_t sent = rime_send(bench->sender, false, bench->samples, bench->entries, bench->ancillary, bench->entries,
                                 bench->cells[cell], RIME_CELL_OCTETS);
        insist(sent == RIME_DONE, row, "a cell was not sent");
    }
}

static uint8_t pack_once(struct bench *bench, const struct who *who, size_t call) {
    return who->send(bench->sender, false, bench->samples, bench->entries, bench->ancillary, bench->entries,
                     bench->cells[call % CELLS], RIME_CELL_OCTETS);
}

/* Cells upwards are a line without loss; downwards, each is fifteen numbers after the last: fourteen are missing. */
static uint8_t unpack_once(struct bench *bench, const struct who *who, size_t call) {
    size_t cell = bench->row.gap ? CELLS - 1 - call % CELLS : call % CELLS;
    return who->receive(bench->receiver, bench->cells[cell], RIME_CELL_OCTETS, false, bench->samples, bench->room,
                        bench->ancillary, bench->room, bench->marks, bench->room, bench->report);
}

/* After a multiple of CELLS calls every state is back where it was. */
static uint8_t call_many(struct bench *bench, const struct who *who, size_t calls) {
    uint8_t refusals = 0;
    if (bench->row.unpacks)
        for (size_t call = 0; call < calls; call++) refusals |= unpack_once(bench, who, call);
    else
        for (size_t call = 0; call < calls; call++) refusals |= pack_once(bench, who, call);
    return refusals;
}

static void check_agreement(const struct row *row) {
    static struct bench by_proved, by_plain;
    prepare(&by_proved, row);
    prepare(&by_plain, row);
    for (size_t round = 0; round < 2; round++) {
        insist(call_many(&by_proved, &proved, CELLS) == RIME_DONE, row, "the proved one refused a call");
        insist(call_many(&by_plain, &plain, CELLS) == RIME_DONE, row, "the plain one refused a call");
        insist(memcmp(&by_proved, &by_plain, sizeof by_plain) == 0, row, "plain and proved differ");
    }
    insist(!row->unpacks || by_proved.report[RIME_REPORT_MISSING] == row->gap, row, "the gap isn't the row's");
}

static double now(void) {
    struct timespec time;
    clock_gettime(CLOCK_MONOTONIC, &time);
    return 1e9 * (double)time.tv_sec + (double)time.tv_nsec;
}

static void time_calls(struct bench *bench, const struct who *who, double *least) {
    double start = now();
    uint8_t refusals = call_many(bench, who, BATCH);
    double spent = (now() - start) / BATCH;
    insist(refusals == RIME_DONE, &bench->row, "a measured call was refused");
    if (spent < *least) *least = spent;
}

__attribute__((noipa)) static void copy(uint8_t *to, const uint8_t *from, size_t octets) { memcpy(to, from, octets); }

/* As many octets as a call of the row writes: the cell, or its entries in the three runs. */
static void time_copies(const struct bench *bench, double *least) {
    static uint8_t from[MOST_ENTRIES * 10], to[MOST_ENTRIES * 10];
    size_t octets = bench->row.unpacks ? bench->room * 10 : RIME_CELL_OCTETS;
    double start = now();
    for (size_t call = 0; call < BATCH; call++) copy(to, from, octets);
    double spent = (now() - start) / BATCH;
    if (spent < *least) *least = spent;
}

/* Both work on the same memory, so that neither has the better addresses; a batch brings the states back. */
static void measure(const struct row *row) {
    static struct bench bench;
    prepare(&bench, row);
    double proved_ns = 1e9, plain_ns = 1e9, copy_ns = 1e9;
    for (size_t repeat = 0; repeat < REPEATS; repeat++) {
        time_calls(&bench, &proved, &proved_ns);
        time_calls(&bench, &plain, &plain_ns);
        time_copies(&bench, &copy_ns);
    }
    char name[64];
    name_of(row, name, sizeof name);
    printf("%s %.1f %.1f %.1f\n", name, proved_ns, plain_ns, copy_ns);
}

/* What callgrind counts. */
__attribute__((noipa)) static uint8_t counted(struct bench *bench, const struct who *who, size_t calls) {
    return call_many(bench, who, calls);
}

/* Two counts for each box, of CELLS calls and of twice as many: their difference is CELLS calls and nothing else. */
static void count(const struct row *row) {
    static struct bench bench;
    const struct who *both[] = {&proved, &plain};
    for (size_t which = 0; which < 2; which++) {
        prepare(&bench, row);
        uint8_t refusals = call_many(&bench, both[which], CELLS);
        COUNTED(refusals |= counted(&bench, both[which], CELLS));
        COUNTED(refusals |= counted(&bench, both[which], 2 * CELLS));
        insist(refusals == RIME_DONE, row, "a counted call was refused");
    }
    name_row(row);
}

typedef void row_function(const struct row *);

static row_function *function_of(const char *word) {
    if (strcmp(word, "rows") == 0) return name_row;
    if (strcmp(word, "times") == 0) return measure;
    if (strcmp(word, "count") == 0) return count;
    return NULL;
}

int main(int argc, char **argv) {
    static struct row rows[MOST_ROWS];
    row_function *function = argc == 2 || argc == 3 ? function_of(argv[1]) : NULL;
    regex_t pattern;
    if (function == NULL || regcomp(&pattern, argc == 3 ? argv[2] : ".", REG_EXTENDED | REG_NOSUB) != 0) {
        fputs("usage: bench rows | times | count [ROWS]\n", stderr);
        return 2;
    }
    size_t all = all_rows(rows);
    for (size_t at = 0; at < all; at++) {
        char name[64];
        name_of(&rows[at], name, sizeof name);
        if (regexec(&pattern, name, 0, NULL, 0) != 0) continue;
        if (function != name_row) check_agreement(&rows[at]);
        function(&rows[at]);
    }
    frames_rows(argv[1], &pattern);
    units_rows(argv[1], &pattern);
    walks_rows(argv[1], &pattern);
    return 0;
}
