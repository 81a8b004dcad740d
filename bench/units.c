/* Data units beside those of plain.c: two channels, 240 frames a call. */
#include "units.h"

#include <inttypes.h>
#include <stdio.h>
#include <stdlib.h>
#include <string.h>
#include <time.h>

#include "counting.h"
#include "plain.h"
#include "rimesatchel.h"

enum { CHANNELS = 2, ENTRIES = 240 * CHANNELS, MOST_OCTETS = 4 * ENTRIES, SIZE = 1440 };
enum { CALLS = 16, BATCH = 10 * CALLS, REPEATS = 200 };

typedef uint8_t export_function(uint32_t, uint32_t, size_t, const uint64_t *, size_t, const uint8_t *, size_t, uint8_t *,
                                size_t, uint64_t *);
typedef uint8_t read_function(uint32_t, uint32_t, const uint8_t *, size_t, uint64_t *, size_t, uint8_t *, size_t,
                              uint64_t *);

struct who {
    export_function *export;
    read_function *read;
};

static const struct who proved = {rime_units_export, rime_unit_read};
static const struct who plain = {plain_units_export, plain_unit_read};

struct row {
    bool reads;
    uint8_t format, sample_bits, octets;
};

/* A format is one line here, for both ways. */
static const struct row formats[] = {
    {false, 0x02, 8, 1},  {false, 0x04, 16, 2}, {false, 0x06, 24, 3}, {false, 0x08, 32, 4},
    {false, 0x43, 12, 2}, {false, 0x45, 20, 3}, {false, 0x47, 28, 4},
};
enum { FORMATS = sizeof formats / sizeof *formats };

/* All that one row's calls are lent. */
struct bench {
    struct row row;
    uint64_t samples[ENTRIES], told[3], entries;
    uint8_t ancillary[ENTRIES], out[MOST_OCTETS];
};

static void name_of(const struct row *row, char *name, size_t size) {
    snprintf(name, size, "%s-%02X-C%d-order0", row->reads ? "read" : "export", row->format, CHANNELS);
}

static void insist(bool holds, const struct row *row, const char *what) {
    if (holds) return;
    char name[64];
    name_of(row, name, sizeof name);
    fprintf(stderr, "bench: %s: %s\n", name, what);
    exit(1);
}

static uint64_t next_random(uint64_t *state) {
    *state = *state * UINT64_C(6364136223846793005) + UINT64_C(1442695040888963407);
    return *state >> 20;
}

static uint8_t call_once(struct bench *bench, const struct who *who) {
    const struct row *row = &bench->row;
    size_t octets = (size_t)row->octets * ENTRIES;
    return row->reads ? who->read(row->format, CHANNELS, bench->out, octets, bench->samples, ENTRIES, bench->ancillary,
                                  ENTRIES, &bench->entries)
                      : who->export(row->format, CHANNELS, SIZE, bench->samples, ENTRIES, bench->ancillary, ENTRIES,
                                    bench->out, octets, bench->told);
}

/* Fills the runs and, by the plain export, the octets that are read. */
static void prepare(struct bench *bench, const struct row *row) {
    memset(bench, 0, sizeof *bench);
    uint64_t random = row->format;
    for (size_t entry = 0; entry < ENTRIES; entry++) {
        bench->samples[entry] = next_random(&random) & ((UINT64_C(1) << row->sample_bits) - 1);
        bench->ancillary[entry] = row->format >= 0x40 ? next_random(&random) % 16 : 0;
    }
    bench->row = *row;
    bench->row.reads = false;
    insist(call_once(bench, &plain) == RIME_DONE, row, "no units");
    bench->row.reads = row->reads;
}

/* What the row's call writes holds something else before it. */
static void forget(struct bench *bench) {
    if (bench->row.reads) {
        memset(bench->samples, 0x5A, sizeof bench->samples);
        memset(bench->ancillary, 0x5A, sizeof bench->ancillary);
    } else {
        memset(bench->out, 0x5A, sizeof bench->out);
    }
}

static void check_agreement(const struct row *row) {
    static struct bench by_proved, by_plain;
    prepare(&by_proved, row);
    prepare(&by_plain, row);
    forget(&by_proved);
    forget(&by_plain);
    insist(call_once(&by_proved, &proved) == RIME_DONE, row, "the proved one refused a call");
    insist(call_once(&by_plain, &plain) == RIME_DONE, row, "the plain one refused a call");
    insist(memcmp(&by_proved, &by_plain, sizeof by_plain) == 0, row, "plain and proved differ");
}

static uint8_t call_many(struct bench *bench, const struct who *who, size_t calls) {
    uint8_t refusals = 0;
    for (size_t call = 0; call < calls; call++) refusals |= call_once(bench, who);
    return refusals;
}

static double now(void) {
    struct timespec time;
    clock_gettime(CLOCK_MONOTONIC, &time);
    return 1e9 * (double)time.tv_sec + (double)time.tv_nsec;
}

static void time_calls(struct bench *bench, const struct who *who, double *least) {
    double start = now();
    uint8_t refusals = call_many(bench, who, BATCH);
    double spent = (now() - start) / BATCH;
    insist(refusals == RIME_DONE, &bench->row, "a measured call was refused");
    if (spent < *least) *least = spent;
}

__attribute__((noipa)) static void copy(uint8_t *to, const uint8_t *from, size_t octets) { memcpy(to, from, octets); }

/* As many octets as a call of the row writes. */
static void time_copies(const struct bench *bench, double *least) {
    static uint8_t from[ENTRIES * 9], to[ENTRIES * 9];
    size_t octets = bench->row.reads ? sizeof to : (size_t)bench->row.octets * ENTRIES;
    double start = now();
    for (size_t call = 0; call < BATCH; call++) copy(to, from, octets);
    double spent = (now() - start) / BATCH;
    if (spent < *least) *least = spent;
}

static void measure(const struct row *row, const char *name) {
    static struct bench bench;
    prepare(&bench, row);
    double proved_ns = 1e9, plain_ns = 1e9, copy_ns = 1e9;
    for (size_t repeat = 0; repeat < REPEATS; repeat++) {
        time_calls(&bench, &proved, &proved_ns);
        time_calls(&bench, &plain, &plain_ns);
        time_copies(&bench, &copy_ns);
    }
    printf("%s %.1f %.1f %.1f\n", name, proved_ns, plain_ns, copy_ns);
}

/* What callgrind counts. */
__attribute__((noipa)) static uint8_t counted(struct bench *bench, const struct who *who, size_t calls) {
    return call_many(bench, who, calls);
}

static void count(const struct row *row, const char *name) {
    static struct bench bench;
    const struct who *both[] = {&proved, &plain};
    for (size_t which = 0; which < 2; which++) {
        prepare(&bench, row);
        uint8_t refusals = call_many(&bench, both[which], CALLS);
        COUNTED(refusals |= counted(&bench, both[which], CALLS));
        COUNTED(refusals |= counted(&bench, both[which], 2 * CALLS));
        insist(refusals == RIME_DONE, row, "a counted call was refused");
    }
    puts(name);
}

static void one_row(const char *word, const struct row *row, const regex_t *pattern) {
    char name[64];
    name_of(row, name, sizeof name);
    if (regexec(pattern, name, 0, NULL, 0) != 0) return;
    if (strcmp(word, "rows") == 0) {
        puts(name);
        return;
    }
    check_agreement(row);
    if (strcmp(word, "times") == 0)
        measure(row, name);
    else
        count(row, name);
}

void units_rows(const char *word, const regex_t *pattern) {
    for (size_t way = 0; way < 2; way++)
        for (size_t at = 0; at < FORMATS; at++) {
            struct row row = formats[at];
            row.reads = way == 1;
            one_row(word, &row, pattern);
        }
}
