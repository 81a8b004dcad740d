/* The benchmark's rows of the AES3 cable: a frame in, a frame out. */
#ifndef FRAMES_H
#define FRAMES_H

#include <regex.h>

/* `rows`, `times` or `count`, as for bench itself, of the rows whose names the pattern fits. */
void frames_rows(const char *word, const regex_t *pattern);

#endif
