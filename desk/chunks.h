/* The chunks of a sound file, as they stand in it, and chunks that are put behind its sound. */
#ifndef CHUNKS_H
#define CHUNKS_H

#include "desk.h"

/* A name of four letters (of sixteen octets in W64, whose length counts those 24 too), and a length. */
struct chunks {
    int fd;
    uint64_t end;        /* of the file */
    bool aiff;           /* AIFF */
    bool top;            /* the highest octet of a number comes first */
    bool wide;           /* W64 */
    uint64_t long_data;  /* the length of the sound where its chunk has no room for it, of RF64; UINT64_MAX where there
                            is none */
    uint64_t at, length; /* what is in the chunk that stands there: its start, and its length by the header */
    char name[4];
    unsigned seen;
};
bool chunks_begin(struct chunks *chunks, int fd); /* goes to the first; false where it is no file of chunks */
bool chunks_next(struct chunks *chunks);          /* false where there is no other */
bool chunks_is(const struct chunks *chunks, const char *name);
bool chunks_is_list(const struct chunks *chunks, const char *kind); /* a chunk LIST of this kind */
uint64_t chunks_number(const uint8_t *octets, unsigned count, bool top);
/* What is in the chunk, at most `most` octets, and a zero behind it. NULL where it is longer, or isn't there. To be
 * freed. */
uint8_t *chunks_read(const struct chunks *chunks, size_t most);

/* Chunks of WAV that are built, to stand behind the sound. */
struct tail {
    uint8_t *octets;
    size_t count, room;
};
void tail_put(struct tail *tail, const void *octets, size_t count);
void tail_number(struct tail *tail, uint64_t number, unsigned octets);
size_t tail_begin(struct tail *tail, const char *name); /* a chunk, up to tail_end with what this returns */
void tail_end(struct tail *tail, size_t begun);
void tail_free(struct tail *tail);
/* Puts them behind all that is in a file of WAV or RF64, and mends its lengths. False where it has no room in 4 GB:
   nothing is put then. A fault is noted in the output. */
bool tail_append(const struct tail *tail, struct output *output);

#endif
