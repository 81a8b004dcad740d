/* The AES3 cable's two calls beside those of plain.c: a call is one frame. */
#include "frames.h"

#include <stdio.h>
#include <stdlib.h>
#include <string.h>
#include <time.h>

#include "counting.h"
#include "plain.h"
#include "rimesatchel.h"

enum { FRAMES = 16, BATCH = 10 * FRAMES, REPEATS = 1000 };

typedef uint8_t import_function(const uint8_t *, const uint32_t *, uint64_t *, uint8_t *);
typedef uint8_t export_function(const uint64_t *, const uint8_t *, uint8_t *, uint32_t *);

struct who {
    import_function *import;
    export_function *export;
};

static const struct who proved = {rime_aes3_import, rime_aes3_export};
static const struct who plain = {plain_aes3_import, plain_aes3_export};

/* Row 0 is a frame in, row 1 a frame out. */
enum { ROWS = 2 };
static const char *const names[ROWS] = {"aes3_import-56-C2-order0", "aes3_export-56-C2-order0"};

struct frame {
    uint8_t preambles[2], ancillary[2];
    uint32_t subframes[2];
    uint64_t samples[2];
};

static uint64_t next_random(uint64_t *state) {
    *state = *state * UINT64_C(6364136223846793005) + UINT64_C(1442695040888963407);
    return *state >> 20;
}

/* Frames as they come off a cable: a block begins at every eighth. */
static void prepare(struct frame *frames) {
    uint64_t random = 1;
    for (size_t at = 0; at < FRAMES; at++) {
        struct frame *frame = &frames[at];
        for (size_t half = 0; half < 2; half++) {
            frame->samples[half] = next_random(&random) & 0xFFFFFF;
            frame->ancillary[half] = (uint8_t)(next_random(&random) % 8 + (at % 8 == 0) * 8);
        }
        if (plain_aes3_export(frame->samples, frame->ancillary, frame->preambles, frame->subframes) != RIME_DONE) abort();
    }
}

static uint8_t call_once(struct frame *frame, const struct who *who, size_t row) {
    return row == 0 ? who->import(frame->preambles, frame->subframes, frame->samples, frame->ancillary)
                    : who->export(frame->samples, frame->ancillary, frame->preambles, frame->subframes);
}

static uint8_t call_many(struct frame *frames, const struct who *who, size_t row, size_t calls) {
    uint8_t refusals = 0;
    if (row == 0)
        for (size_t call = 0; call < calls; call++) refusals |= call_once(&frames[call % FRAMES], who, 0);
    else
        for (size_t call = 0; call < calls; call++) refusals |= call_once(&frames[call % FRAMES], who, 1);
    return refusals;
}

/* Any letters and slots for an import, any numbers for an export: mostly such as are taken. */
static struct frame anything(uint64_t *random, size_t row) {
    struct frame frame;
    memset(&frame, 0x5A, sizeof frame);
    for (size_t half = 0; half < 2; half++) {
        frame.preambles[half] = (uint8_t)(RIME_PREAMBLE_X + next_random(random) % 3);
        frame.subframes[half] = (uint32_t)next_random(random);
        if (row == 0) continue;
        frame.samples[half] = next_random(random) % (next_random(random) % 8 ? 0x1000000 : UINT64_MAX);
        frame.ancillary[half] = (uint8_t)(next_random(random) % (next_random(random) % 8 ? 16 : 256));
    }
    return frame;
}

/* Plain and proved must leave the same on every frame, refused ones too. */
static void check_agreement(size_t row) {
    uint64_t random = 7;
    for (size_t call = 0; call < 50000; call++) {
        struct frame by_proved = anything(&random, row), by_plain = by_proved;
        uint8_t refusal = call_once(&by_proved, &proved, row);
        if (refusal == call_once(&by_plain, &plain, row) && memcmp(&by_proved, &by_plain, sizeof by_plain) == 0) continue;
        fprintf(stderr, "bench: %s: plain and proved differ\n", names[row]);
        exit(1);
    }
}

static double now(void) {
    struct timespec time;
    clock_gettime(CLOCK_MONOTONIC, &time);
    return 1e9 * (double)time.tv_sec + (double)time.tv_nsec;
}

static void time_calls(struct frame *frames, const struct who *who, size_t row, double *least) {
    double start = now();
    if (call_many(frames, who, row, BATCH) != RIME_DONE) abort();
    double spent = (now() - start) / BATCH;
    if (spent < *least) *least = spent;
}

/* As many octets as a call writes. */
static void time_copies(struct frame *frames, size_t row, double *least) {
    double start = now();
    for (size_t call = 0; call < BATCH; call++)
        memcpy(&frames[call % FRAMES], &frames[(call + 1) % FRAMES], row == 0 ? 18 : 10);
    double spent = (now() - start) / BATCH;
    if (spent < *least) *least = spent;
}

static void measure(size_t row) {
    static struct frame frames[FRAMES], others[FRAMES];
    prepare(frames);
    double proved_ns = 1e9, plain_ns = 1e9, copy_ns = 1e9;
    for (size_t repeat = 0; repeat < REPEATS; repeat++) {
        time_calls(frames, &proved, row, &proved_ns);
        time_calls(frames, &plain, row, &plain_ns);
        time_copies(others, row, &copy_ns);
    }
    printf("%s %.1f %.1f %.1f\n", names[row], proved_ns, plain_ns, copy_ns);
}

/* What callgrind counts. */
__attribute__((noipa)) static uint8_t counted(struct frame *frames, const struct who *who, size_t row, size_t calls) {
    return call_many(frames, who, row, calls);
}

static void count(size_t row) {
    static struct frame frames[FRAMES];
    const struct who *both[] = {&proved, &plain};
    for (size_t which = 0; which < 2; which++) {
        prepare(frames);
        uint8_t refusals = call_many(frames, both[which], row, FRAMES);
        COUNTED(refusals |= counted(frames, both[which], row, FRAMES));
        COUNTED(refusals |= counted(frames, both[which], row, 2 * FRAMES));
        if (refusals != RIME_DONE) abort();
    }
    puts(names[row]);
}

void frames_rows(const char *word, const regex_t *pattern) {
    for (size_t row = 0; row < ROWS; row++) {
        if (regexec(pattern, names[row], 0, NULL, 0) != 0) continue;
        if (strcmp(word, "rows") == 0) {
            puts(names[row]);
            continue;
        }
        check_agreement(row);
        if (strcmp(word, "times") == 0)
            measure(row);
        else
            count(row);
    }
}
