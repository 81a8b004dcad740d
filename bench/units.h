/* The benchmark's rows of data units: an export of 240 frames, and the reading of one unit of 240 frames. */
#ifndef UNITS_H
#define UNITS_H

#include <regex.h>
#include <stdbool.h>

/* `rows`, `times` or `count`, as for bench itself, of the rows whose names the pattern fits. */
void units_rows(const char *word, const regex_t *pattern);

#endif
