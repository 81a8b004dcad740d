/* slips.c: cells that second numbers tell of are handed out as missing. struct slips is in desk.h, since a reading has one. */
#ifndef SLIPS_H
#define SLIPS_H

#include "desk.h"

/* As reading_step, with silence for the cells that second numbers tell of. */
enum step slips_step(struct reading *reading);
void slips_watch(struct slips *slips, const uint8_t report[RIME_REPORT]); /* for each cell that was taken, once */
bool slips_flawed(const struct slips *slips);                 /* at the end: cells were told of, or may be missing */
void slips_say(const struct slips *slips, const char *name);  /* at the end: the last cell waits for one that decides */

#endif
