/*
 * The benchmark's rows of calls that go through a whole log: rime_sheet, rime_anything, rime_log_list and rime_salvage; and of
 * rime_send_log, which writes one.
 */
#ifndef WALKS_H
#define WALKS_H

#include <regex.h>

/* `rows`, `times` or `count`, as for bench itself, of the rows whose names the pattern fits. */
void walks_rows(const char *word, const regex_t *pattern);

#endif
