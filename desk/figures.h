/* The sheet of request 3 for a year: a row of figures for each log, what state it is in and its name, and one of all together. */
#ifndef FIGURES_H
#define FIGURES_H

#include "desk.h"

enum {
    SOUND_CELLS,
    MISSING_CELLS,
    REFUSED_8,
    REFUSED_9,
    REFUSED_15,
    REFUSED_20,
    MARKED_0,
    MARKED_1,
    MARKED_2,
    SUMS, /* those above add up */
    PER_MILLION = SUMS,
    FIGURES
};

struct figures {
    uint64_t of[FIGURES];
};
uint64_t per_million(const struct figures *figures);                      /* from sound and missing, whatever they are */
bool figures_add(struct figures *sum, const struct figures *figures);     /* false where a sum has no room in 64 bits */

enum { MOST_LOGS = 4096 }; /* of a plain sheet */

/* The state of a log: empty where all is well, `unreadable`, `refused 11` or `broken 12 at 7`. */
enum { STATE = 48 };
struct row {
    struct figures figures;
    char state[STATE];
    char *file; /* its name as it was given */
};

struct sheet {
    struct row *rows;
    size_t logs, room;
    struct figures all;
    uint64_t stated;  /* rows that have a state */
    bool plain;       /* the sheet of request 3 itself: its columns and its limits */
    bool json;        /* printed as JSON */
    bool overflow;    /* a total has no room in 64 bits */
    unsigned refusal; /* 18 or 19 of a plain sheet, or 0 */
};

/* figures.c */
extern const char plain_names[], more_names[]; /* the columns of a plain sheet, and those that any other has after them */
void sheet_take(struct sheet *sheet, const struct row *row); /* the next log's: its first nine figures, state and name */
void sheet_tell(const struct sheet *sheet); /* the same in JSON: the members `logs` and `all`, of a sheet that isn't refused */
int sheet_print(struct sheet *sheet); /* a status. A plain one that is refused is a line that says so, and so it is told */

/* readback.c: takes the rows of sheets that were printed, plain or not, one after the other in a file. A status; says what is
   wrong. */
int sheet_read(struct sheet *sheet, const char *name);

#endif
