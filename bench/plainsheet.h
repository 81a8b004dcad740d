/* The figures of a log in plain C, to measure rime_sheet against. */
#ifndef PLAINSHEET_H
#define PLAINSHEET_H

#include <stddef.h>
#include <stdint.h>

/* Adds to `figures` what a log counts: sound, missing, refused 8, 9, 15, 20, marked 0, 1, 2. The tenth stays. */
void plain_figures(const uint8_t *log, size_t length, uint64_t figures[10]);

#endif
