/* Where the name of an output leads, and whether a call names one file twice. */
#include "place.h"

#include <err.h>
#include <errno.h>
#include <limits.h>
#include <stdio.h>
#include <stdlib.h>
#include <string.h>
#include <strings.h>
#include <sysexits.h>
#include <unistd.h>

enum { LINKS = 40 }; /* the system follows no more either */

static const char *last_part(const char *path) {
    const char *slash = strrchr(path, '/');
    return slash == NULL ? path : slash + 1;
}

bool place_folder(const char *path, char **folder) {
    size_t length = (size_t)(last_part(path) - path);
    *folder = length == 0 ? strdup(".") : strndup(path, length);
    return *folder != NULL;
}

/* The number of a descriptor of this program that a path stands for, or -1: a link in its own folder of them. */
static int descriptor_of(const char *path) {
    char own[64], real[PATH_MAX], *folder;
    snprintf(own, sizeof own, "/proc/%ld/fd", (long)getpid());
    if (!place_folder(path, &folder)) return -1;
    bool same = realpath(folder, real) != NULL && strcmp(real, own) == 0;
    free(folder);
    const char *number = last_part(path);
    char *end;
    errno = 0;
    long found = same ? strtol(number, &end, 10) : -1;
    return same && errno == 0 && end != number && *end == '\0' && found >= 0 && found <= INT_MAX ? (int)found : -1;
}

/* What a link says, from the folder in which it stands. */
static char *joined(const char *path, const char *link) {
    char *folder, *whole = NULL;
    if (link[0] == '/') return strdup(link);
    if (!place_folder(path, &folder)) return NULL;
    if (asprintf(&whole, "%s/%s", folder, link) < 0) whole = NULL;
    free(folder);
    return whole;
}

bool place_find(struct place *place, const char *name) {
    *place = (struct place){.path = strdup(name), .descriptor = -1};
    for (int links = 0; place->path != NULL; links++) {
        char link[PATH_MAX];
        place->descriptor = descriptor_of(place->path);
        ssize_t length = place->descriptor >= 0 ? -1 : readlink(place->path, link, sizeof link - 1);
        if (length < 0) {
            place->there = stat(place->path, &place->about) == 0;
            return true;
        }
        link[length] = '\0';
        char *next = links < LINKS ? joined(place->path, link) : NULL;
        if (links == LINKS) errno = ELOOP;
        free(place->path);
        place->path = next;
    }
    return false;
}

bool place_is_stream(const char *name) {
    struct place place;
    if (strcmp(name, "-") == 0) return true;
    if (!place_find(&place, name)) return false;
    free(place.path);
    return place.descriptor >= 0 || (place.there && !S_ISREG(place.about.st_mode));
}

bool place_ends(const char *name, const char *ending) {
    const char *last = last_part(name), *dot = strrchr(last, '.');
    return dot == NULL || dot == last || strcasecmp(dot + 1, ending) == 0;
}

/* A name of the call: `-` is standard input or output. */
static void find(struct place *place, const char *name, int standard) {
    if (strcmp(name, "-") != 0) {
        if (!place_find(place, name)) err(STATUS_FILE, "%s", name);
        return;
    }
    *place = (struct place){.descriptor = standard};
    place->there = fstat(standard, &place->about) == 0;
}

static bool same_folder(const char *one, const char *other) {
    char *folder, *other_folder;
    struct stat about, about_other;
    if (!place_folder(one, &folder) || !place_folder(other, &other_folder)) err(STATUS_FILE, "%s", one);
    bool same = stat(folder, &about) == 0 && stat(other_folder, &about_other) == 0 && about.st_dev == about_other.st_dev &&
                about.st_ino == about_other.st_ino;
    free(folder);
    free(other_folder);
    return same;
}

static bool same_file(const struct place *one, const struct place *other) {
    if (one->there != other->there) return false;
    if (one->there)
        return S_ISREG(one->about.st_mode) && one->about.st_dev == other->about.st_dev &&
               one->about.st_ino == other->about.st_ino;
    if (one->path == NULL || other->path == NULL) return false;
    return strcmp(last_part(one->path), last_part(other->path)) == 0 && same_folder(one->path, other->path);
}

static void hold_apart(const char *output, const char *name, bool is_output) {
    struct place one, other;
    find(&one, output, STDOUT_FILENO);
    find(&other, name, is_output ? STDOUT_FILENO : STDIN_FILENO);
    bool standard = is_output && one.descriptor >= 0 && one.descriptor == other.descriptor; /* two outputs would be mixed */
    bool same = standard || same_file(&one, &other);
    free(one.path);
    free(other.path);
    if (!same) return;
    name = shown(name, is_output);
    output = shown(output, true);
    if (strcmp(output, name) == 0) errx(EX_USAGE, "%s is named twice: an output needs a file of its own", output);
    errx(EX_USAGE, "%s and %s are one file: an output needs a file of its own", name, output);
}

void place_apart(const char *in, const char *const *outputs, size_t count) {
    for (size_t at = 0; at < count; at++) {
        if (outputs[at] == NULL) continue;
        hold_apart(outputs[at], in, false);
        for (size_t before = 0; before < at; before++)
            if (outputs[before] != NULL) hold_apart(outputs[at], outputs[before], true);
    }
}
