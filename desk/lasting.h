/*
 * A log that is recorded: it has its own name from the start, whole records are appended, and what was appended stays
 * whatever happens. output.c is for files that are whole or not there at all.
 */
#ifndef LASTING_H
#define LASTING_H

#include "desk.h"

enum { LASTING_HELD = 1024 };        /* records */
enum { LASTING_RECORDS = 87652393 }; /* the most in a log of 4,294,967,295 octets */

struct lasting {
    char *path;
    int fd;
    uint64_t octets;  /* written */
    uint64_t records; /* in all, those that are held among them */
    bool reserved;    /* room was taken beforehand */
    bool named;       /* its name is on the disk */
    uint8_t held[LASTING_HELD * RIME_RECORD_OCTETS];
    uint64_t used; /* octets of it that aren't written yet */
};

/* The name of a piece: OUT.log is followed by OUT.2.log. To be freed. */
char *lasting_name(const char *name, unsigned piece);

/* Each says what is wrong. Where writing fails, the log is cut to whole records, closed, and how many are kept is said.
 */
int lasting_open(struct lasting *lasting, const char *name, unsigned piece, struct settings settings); /* a status */
bool lasting_reserve(struct lasting *lasting, uint64_t octets,
                  bool must); /* true where it needn't be, or the disk can't do it */
bool lasting_put(struct lasting *lasting, const uint8_t cell[RIME_CELL_OCTETS], bool indication);
bool lasting_sync(struct lasting *lasting);  /* all of it is on the disk, its name too */
bool lasting_close(struct lasting *lasting); /* that too; room that wasn't used is given back */

#endif
