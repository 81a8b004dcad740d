#include "formats.h"

#include <stddef.h>
#include <stdlib.h>

/* A format is one line here; its rows follow from it. */
const struct format formats[FORMATS] = {
    {0x02, 48, 8, false, false}, {0x04, 24, 16, false, false}, {0x06, 16, 24, false, false}, {0x08, 12, 32, false, false},
    {0x43, 24, 12, true, false}, {0x45, 16, 20, true, false},  {0x47, 12, 28, true, false},  {0x13, 24, 12, false, true},
    {0x15, 16, 20, false, true}, {0x17, 12, 28, false, true},  {0x52, 24, 8, true, true},    {0x54, 16, 16, true, true},
    {0x56, 12, 24, true, true},  {0x5A, 8, 40, true, true},
};

const struct format *format_of(uint8_t octet) {
    for (size_t at = 0; at < FORMATS; at++)
        if (formats[at].octet == octet) return &formats[at];
    abort();
}
