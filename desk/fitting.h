/* Samples of a log as a sound file has them: whole numbers at the top of 32 bits, or floating point where there are 40. */
#ifndef FITTING_H
#define FITTING_H

#include "desk.h"

struct fitting {
    unsigned sample_bits; /* of the format */
    unsigned file_bits;   /* 16, 24 or 32, or SOUND_FLOAT */
    unsigned cut;         /* the top bits that are kept, 0 where none may be dropped */
    uint64_t dropped;     /* samples that lost bits which weren't 0 */
};

enum { FITTED = 32 * DESK_ROOM };
union fitted {
    int whole[FITTED];
    double real[FITTED];
};

/* By the format's bits, and by what is asked for, 0 where it isn't: the file's bits, and the bits that are kept. */
struct fitting fitting_of(unsigned sample_bits, unsigned bits, unsigned cut);
/* Puts samples into a run from a place on. Returns how many: all, or those before the first that has bits too many. */
size_t fitting_put(struct fitting *fitting, const uint64_t *samples, size_t count, union fitted *to, size_t place);

/* Goes through a log to its end or its fault: whether every sample has zeros below so many top bits. Returns the last step. */
enum step fitting_try(struct reading *reading, unsigned bits, bool *fits);

#endif
