/* The records of a log in pieces, judged beside its list for what their second numbers tell. */
#ifndef WATCHED_H
#define WATCHED_H

#include "pieces.h"

struct watched {
    struct slips slips;
    bool begun; /* the header is read; without overhead nothing is judged */
    uint8_t state[RIME_RECEIVER_STATE];
    uint8_t octets[RIME_RECORD_OCTETS + PIECE]; /* what isn't judged yet */
    size_t held;

    uint8_t reports[(PIECE / RIME_RECORD_OCTETS + 2) * RIME_JUDGEMENT]; /* of the last piece */
    uint64_t judged, seen;                                      /* how many, and how many of them were looked at */
    uint64_t record, last;                                      /* the record to look at, and the one that was taken last */
};

void watched_take(struct watched *watched, const uint8_t *piece, size_t count); /* judges the records that it ends */
/* Looks at the next of these records; false where there is none. `slips.before` cells more are missing before record `*before`. */
bool watched_next(struct watched *watched, uint64_t *before);

#endif
