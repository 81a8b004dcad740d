/*
 * Datagrams in the order of their sequence numbers. One that comes before its turn waits, in a window of 64 numbers,
 * until those before it came, it has waited 50 ms, or one comes that the window has no place for. Late and repeated
 * ones are counted and dropped: numbers of cells count to 16 alone, and such a datagram would put all that follows in a
 * wrong place.
 */
#ifndef ORDER_H
#define ORDER_H

#include "wire.h"

enum {
    ORDER_WINDOW = 64,
    ORDER_FAR = 2 * ORDER_WINDOW, /* so far ahead a number is believed with its successor alone */
    ORDER_AGAIN = 8,              /* so many behind, one after the other: the sender began again */
    ORDER_WAIT = 50000000         /* nanoseconds */
};

/* A datagram with its cells, and when it came. */
struct datagram {
    const uint8_t *octets;
    size_t count;
    uint64_t came; /* nanoseconds */
};

/* Of a datagram whose turn it is: how many are lost before it, or that the sender began again with it. */
struct turn {
    struct datagram datagram;
    uint64_t lost;
    bool again;
    bool even;     /* all that came so far, those that wait among them, had equally many cells */
    unsigned each; /* so many; the most that there can be where they hadn't */
};
typedef bool order_turn(const struct turn *turn, void *user); /* false where it can't go on */

struct waiting {
    bool full;
    size_t count;
    uint64_t came;
    uint8_t octets[WIRE_ROOM];
};

struct order {
    order_turn *turn;
    void *user;

    bool started, given;  /* one came; one had its turn */
    uint16_t next;        /* the number whose turn it is */
    uint64_t gap;         /* numbers given up since the last turn */
    uint64_t had;         /* of the 64 numbers before `next`, the last one lowest: those that had their turn */
    unsigned first, full; /* in `window`: the place of `next`, and how many wait */
    uint64_t oldest;      /* none that waits came before this */
    struct waiting window[ORDER_WINDOW];

    struct waiting far; /* one far ahead, and its number */
    uint16_t far_number;
    struct waiting behind[ORDER_AGAIN - 1]; /* those behind, one after the other, up to `behind_number` */
    unsigned behind_count, behind_repeated;
    uint16_t behind_number;

    unsigned cells; /* in the one that came last; 0 before the first */
    bool uneven;    /* they had not equally many */
    uint64_t late, repeated, disbelieved;
};

/* One that wire_datagram took. False where `turn` was. */
bool order_take(struct order *order, uint16_t sequence, struct datagram datagram);
bool order_wait(struct order *order, uint64_t now); /* what has waited long enough has its turn */
bool order_end(struct order *order);                /* nothing more comes */

#endif
