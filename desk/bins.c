/* A reading of any length in a fixed number of bins. Where they are full, two become one. */
#include "bins.h"

#include <limits.h>
#include <stdlib.h>

static const struct bin none = {.low = INT_MAX, .high = INT_MIN};

bool bins_open(struct bins *bins, unsigned channels) {
    *bins = (struct bins){.unit = 1, .channels = channels};
    bins->bins = malloc(sizeof *bins->bins * BINS * channels);
    if (bins->bins == NULL) return false;
    for (size_t at = 0; at < (size_t)BINS * channels; at++) bins->bins[at] = none;
    return true;
}

void bins_close(struct bins *bins) {
    free(bins->bins);
    bins->bins = NULL;
}

static struct bin joined(struct bin a, struct bin b) {
    return (struct bin){
        .low = a.low < b.low ? a.low : b.low,
        .high = a.high > b.high ? a.high : b.high,
        .sound = a.sound || b.sound,
        .missing = a.missing || b.missing,
        .damaged = a.damaged || b.damaged,
    };
}

static void halve(struct bins *bins) {
    for (unsigned channel = 0; channel < bins->channels; channel++) {
        struct bin *row = bins->bins + (size_t)channel * BINS;
        for (size_t at = 0; at < BINS / 2; at++) row[at] = joined(row[2 * at], row[2 * at + 1]);
        for (size_t at = BINS / 2; at < BINS; at++) row[at] = none;
    }
    bins->unit *= 2;
}

static void put(struct bin *bin, int32_t sample, unsigned mark) {
    if (mark == RIME_MARK_MISSING) {
        bin->missing = true;
        return;
    }
    bin->sound = true;
    bin->damaged |= mark == RIME_MARK_DOUBTFUL;
    if (sample < bin->low) bin->low = sample;
    if (sample > bin->high) bin->high = sample;
}

void bins_take(struct bins *bins, unsigned sample_bits, const struct handed *handed) {
    for (size_t at = 0; at < handed->given; bins->times++) {
        if (bins->times == bins->unit * BINS) halve(bins);
        size_t place = bins->times / bins->unit;
        for (unsigned channel = 0; channel < bins->channels; channel++, at++) {
            uint64_t sample = handed->samples[at];
            uint32_t top = (uint32_t)(sample << (64 - sample_bits) >> 32);
            put(&bins->bins[(size_t)channel * BINS + place], (int32_t)top, handed->marks[at]);
        }
    }
}

struct bin bins_between(const struct bins *bins, unsigned channel, double from, double past) {
    double used = (double)bins->times / (double)bins->unit;
    size_t first = (size_t)(from * used), last = (size_t)(past * used);
    if (last <= first) last = first + 1;
    struct bin all = none;
    for (size_t at = first; at < last && at < BINS; at++) all = joined(all, bins->bins[(size_t)channel * BINS + at]);
    return all;
}
