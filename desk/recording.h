/*
 * What comes so far from the line: every cell goes into the log, also one that the receiver refuses, and the receiver
 * runs beside for the counts. Where more is lost than the cells' numbers can tell, a new log begins, so that in each
 * log all stands in its place.
 */
#ifndef RECORDING_H
#define RECORDING_H

#include "lasting.h"
#include "order.h"

/* What came before a sound cell, since the sound cell before it. */
struct before {
    uint64_t away;   /* cells that were lost with their datagrams */
    uint64_t turned; /* cells that the receiver refused, but for repeats */
    uint64_t told;   /* cells that are missing by the numbers of cells, and by second numbers */
    uint64_t record; /* of the sound cell */
};

struct recording {
    /* what is asked for */
    const char *name;
    struct circuit circuit;
    struct settings settings;
    unsigned rate;
    unsigned gap;     /* a new log begins where more cells than this are lost */
    unsigned pieces;  /* the most logs that begin by a gap or with a sender */
    uint64_t most;    /* octets of all logs; UINT64_MAX where there is no limit */
    uint64_t room;    /* octets that are taken beforehand; 0: none */
    uint64_t silence; /* nanoseconds from which on a silence, or no cell, is told of by lines */
    bool quiet;

    struct lasting lasting;
    struct format format;
    unsigned times, entries; /* T, and C * T */
    uint8_t state[RIME_RECEIVER_STATE];
    uint8_t watch[RIME_SLIP];
    bool full; /* --most is reached */

    struct before here;  /* of the next sound cell: so far */
    struct before taken; /* of the last one: what its successor tells of it is added */

    uint64_t begun, last, now; /* nanoseconds: the start, the last cell, and the time that it is */
    bool is_off, is_silent;    /* it was told that no cell comes, or nothing but silence */
    uint64_t silent;           /* sample times of nothing but silence up to now, and the most at a time */
    uint64_t silent_most;

    uint64_t cells, sound, missing, gaps, refused, damaged;
    uint64_t heard; /* sound cells with a sample that isn't zero */
    uint64_t refused_by[256];
    uint64_t time; /* sample times of sound and missing cells */
    uint64_t lost; /* datagrams */
    uint64_t not_taken[WIRE_KINDS];
    unsigned logs, cuts;  /* logs written; those that a gap or a sender began */
    unsigned past_pieces; /* gaps and new senders without a new log, since --pieces is reached */
    uint64_t unplaced;    /* gaps without a new log of which second numbers tell another length than sequence numbers */
};

int recording_open(struct recording *recording);              /* a status; says what is wrong */
bool recording_turn(const struct turn *turn, void *user);     /* an order_turn. False where it can't go on */
void recording_at(struct recording *recording, uint64_t now); /* the time is this; says where no cell comes any more */
bool recording_close(struct recording *recording);            /* also where writing failed before */
double recording_silence(const struct recording *recording);  /* the longest, in seconds of samples */

#endif
