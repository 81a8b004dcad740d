/* A sidecar: what a sound file has beside its samples, and what its samples are, in a file of JSON. docs/DESK.md has
 * its members. */
#ifndef SIDECAR_H
#define SIDECAR_H

#include "kept.h"
#include "sum.h"

struct sidecar {
    unsigned channels, rate, bits;
    uint64_t length; /* samples a channel */
    char md5[SUM_MD5];
    struct kept kept;
};
void sidecar_write(const struct sidecar *sidecar, const char *file,
                   struct output *output);                   /* a fault is noted in the output */
int sidecar_read(struct sidecar *sidecar, const char *name); /* a status, 2 where it isn't one; says what is wrong */

#endif
