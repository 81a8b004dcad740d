/* The fourteen formats, for the rows of the benchmark. */
#ifndef FORMATS_H
#define FORMATS_H

#include <stdbool.h>
#include <stdint.h>

struct format {
    uint8_t octet, slots, sample_bits;
    bool ancillary, overhead;
};

enum { FORMATS = 14 };

extern const struct format formats[FORMATS];

const struct format *format_of(uint8_t octet);

#endif
