/* A reading of any length in a fixed number of bins over time: the highest and lowest sample of each, and its marks. */
#ifndef BINS_H
#define BINS_H

#include "frequency.h"

enum { BINS = 4096 };

struct bin {
    int32_t low, high;
    bool sound, missing, damaged; /* whether any sample here is so */
};

struct bins {
    uint64_t unit;  /* sample times in a bin */
    uint64_t times; /* sample times so far */
    unsigned channels;
    struct bin *bins; /* BINS a channel */
};

bool bins_open(struct bins *bins, unsigned channels); /* false where there is no memory */
void bins_take(struct bins *bins, unsigned sample_bits, const struct handed *handed);
/* All of a stretch, its ends given as parts of the whole, 0 to 1. */
struct bin bins_between(const struct bins *bins, unsigned channel, double from, double past);
void bins_close(struct bins *bins);

#endif
