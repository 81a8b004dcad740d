/* What callgrind counts, with its begin and its end marked: by itself it finds the end of a function on x86-64, but loses most of
 * them on AArch64. Its header is in Debian's package valgrind. */
#ifndef COUNTING_H
#define COUNTING_H

#include <valgrind/callgrind.h>

#define COUNTED(call)             \
    do {                          \
        CALLGRIND_TOGGLE_COLLECT; \
        call;                     \
        CALLGRIND_TOGGLE_COLLECT; \
        CALLGRIND_DUMP_STATS;     \
    } while (0)

#endif
