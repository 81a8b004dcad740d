/* What record tells: a line while it runs, the summary, the answer, and one line for a program that reads it. */
#ifndef TOLD_H
#define TOLD_H

#include "recording.h"

/* What makes the answer a no, beside what always does. */
struct demands {
    uint64_t least;  /* sound, in nanoseconds */
    bool is_silence; /* no silence may last longer than recording->silence */
    bool is_allowed; /* up to `allowed` cells in a million may be missing */
    uint64_t allowed;
};

struct told {
    const struct recording *recording;
    const struct order *order;
    struct demands demands;
    uint64_t dropped; /* datagrams that this machine's own socket lost */
    uint64_t every;   /* nanoseconds from line to line; 0: never */
    bool terminal, quiet;
    uint64_t next, cells, since; /* when the next line is due; the cells at the last one, and when that was */
};

void told_at(struct told *told, uint64_t now);
void told_clear(void); /* for another line than the one that is drawn on a terminal */
void told_summary(const struct told *told);
int told_answer(const struct told *told,
                int status); /* the status, 1 where it was 0 and the answer is a no; says why */
void told_line(const struct told *told, int status);

#endif
