/* A log, read a piece at a time for the proved calls that take one so, whatever its length. `-` is standard input. */
#ifndef PIECES_H
#define PIECES_H

#include "desk.h"

enum { PIECE = 65536 };
/* What a piece can make, by the two numbers of include/rimesatchel.h. */
#define PIECE_ROOM(room, record) ((room) + (record) * (PIECE / RIME_RECORD_OCTETS + 1))

struct pieces {
    const char *name;
    int fd;
    struct whole whole;
    bool ended;
    uint64_t octets; /* read so far */
    size_t count;    /* of the piece */
    uint8_t piece[PIECE];

    uint8_t held[RIME_RECORD_OCTETS]; /* for the calls */
    uint8_t first[9]; /* of the log: three numbers of at most three octets */
    size_t firsts;
};

int pieces_open(struct pieces *pieces, const char *name); /* a status; says what is wrong */
void pieces_close(struct pieces *pieces);

/* Reads the next piece: false where there is none, at the end or where reading failed, which is said. */
bool pieces_next(struct pieces *pieces);

/* A status: STATUS_FILE where reading failed, or the file became shorter, which is said. That it grew is said at its end. */
int pieces_whole(struct pieces *pieces);

/* What a state says of its log, where that ends here: refusal 0 where that is well, a fault, or the refusal of the header. */
struct fault {
    unsigned refusal;
    bool header;
    uint64_t record;
};
struct fault pieces_fault(const struct pieces *pieces, const uint64_t *state);
int pieces_say(const struct pieces *pieces, struct fault fault); /* a status; says what the fault is */

#endif
