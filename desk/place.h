/* Where the name of an output leads, and whether a call names one file twice. */
#ifndef PLACE_H
#define PLACE_H

#include <sys/stat.h>

#include "desk.h"

struct place {
    char *path;        /* the name with all links followed; whether its last part is there, `there` says */
    int descriptor;    /* one of the program's own, as /dev/stdout is; -1 where it is none */
    bool there;        /* and then what it is */
    struct stat about;
};
bool place_find(struct place *place, const char *name); /* false and errno where links lead nowhere */
bool place_folder(const char *path, char **folder);     /* false where there is no memory */
bool place_is_stream(const char *name);                 /* standard output, or what is there and isn't a regular file */
bool place_ends(const char *name, const char *ending);  /* in a dot and this ending, or without an ending */

/*
 * Ends the program, as a wrong call, where an output is also another of the names: the same file, or, where it isn't there yet,
 * the same last part in the same folder. What isn't a regular file may be named twice. A name that is NULL is left out.
 */
void place_apart(const char *in, const char *const *outputs, size_t count);

#endif
