/* What stands in a sound file beside its samples, and isn't kept: the names of its chunks and tags. */
#include <stdio.h>
#include <stdlib.h>
#include <string.h>
#include <unistd.h>

#include "kept.h"

/* A name, once, with letters alone. What has no room any more is said by dots. */
static void add(char others[KEPT_WORDS], const char *before, const uint8_t *name, size_t length) {
    enum { LONGEST = 32 };
    char word[LONGEST + 16];
    size_t held = strlen(others);
    int count = snprintf(word, sizeof word, "%s", before);
    for (size_t at = 0; at < length && at < LONGEST; at++)
        word[count++] = (char)(name[at] > 0x20 && name[at] < 0x7F && name[at] != ',' ? name[at]
                               : name[at] == ' '                                     ? ' '
                                                                                     : '?');
    while (count > 0 && word[count - 1] == ' ') count--;
    word[count] = '\0';
    if (strstr(others, word) != NULL || (held > 3 && strcmp(others + held - 3, "...") == 0)) return;
    if (held + (size_t)count + 8 > KEPT_WORDS) strcat(others, ", ...");
    else snprintf(others + held, KEPT_WORDS - held, "%s%s", held > 0 ? ", " : "", word);
}

/* The fields of a chunk LIST INFO. */
static void find_fields(struct kept *kept, const struct chunks *chunks) {
    uint8_t *octets = chunks_read(chunks, CUES_OCTETS);
    for (size_t at = 4; octets != NULL && at + 8 <= chunks->length;) {
        uint64_t length = chunks_number(octets + at + 4, 4, chunks->top);
        bool empty = length == 0 || octets[at + 8] == 0; /* a zero stands behind the chunk */
        if (!empty && !kept_has_tag(kept, (const char *)octets + at, 4)) add(kept->others, "INFO ", octets + at, 4);
        if (length > chunks->length - at - 8) break;
        at += 8 + length + length % 2;
    }
    free(octets);
}

static bool is_one_of(const struct chunks *chunks, const char *const *names) {
    for (; *names != NULL; names++)
        if (chunks_is(chunks, *names)) return true;
    return false;
}

static void find_chunks(struct kept *kept, struct chunks *chunks, bool has_cues) {
    static const char *const wave[] = {"fmt ", "fact", "data", "ds64", "JUNK", "junk", "PAD ", "FLLR", "PEAK", NULL},
                             *const aiff[] = {"COMM", "SSND", "FVER", "NAME", "AUTH", "(c) ",
                                              "ANNO", "APPL", "PEAK", "FLLR", NULL};
    do {
        if (is_one_of(chunks, chunks->aiff ? aiff : wave)) continue;
        if ((kept->has_bext && chunks_is(chunks, "bext")) ||
            (has_cues && chunks_is(chunks, chunks->aiff ? "MARK" : "cue ")))
            continue;
        if (chunks_is_list(chunks, "INFO")) find_fields(kept, chunks);
        else if (!chunks_is_list(chunks, "adtl")) add(kept->others, "", (const uint8_t *)chunks->name, 4);
    } while (chunks_next(chunks));
}

/* The comments of a FLAC block, `NAME=value` each. */
static void find_comments(struct kept *kept, const uint8_t *octets, size_t count) {
    uint64_t at = 4 + chunks_number(octets, 4, false) + 4; /* after the writer's name, and how many there are */
    while (at + 4 <= count) {
        uint64_t length = chunks_number(octets + at, 4, false);
        at += 4;
        if (length > count - at) return;
        const uint8_t *equals = memchr(octets + at, '=', length);
        size_t name = equals == NULL ? length : (size_t)(equals - octets - at);
        bool empty = name + 1 >= length;
        if (!empty && !kept_has_tag(kept, (const char *)octets + at, name)) add(kept->others, "", octets + at, name);
        at += length;
    }
}

/* The blocks of FLAC: what they are, and their length in 24 bits. */
static void find_blocks(struct kept *kept, int fd) {
    static const char *const kinds[] = {NULL, NULL, "APPLICATION", NULL, NULL, "CUESHEET", "PICTURE"};
    enum { KINDS = sizeof kinds / sizeof *kinds, COMMENTS = 4, LAST = 0x80, MOST = 1000 };
    uint8_t head[4];
    off_t at = 4;
    for (unsigned seen = 0; seen < MOST && pread(fd, head, sizeof head, at) == sizeof head; seen++) {
        unsigned kind = head[0] & ~LAST & 0xFF, count = (unsigned)chunks_number(head + 1, 3, true);
        uint8_t *octets = kind == COMMENTS && count >= 8 ? malloc(count) : NULL;
        if (octets != NULL && pread(fd, octets, count, at + 4) == (ssize_t)count) find_comments(kept, octets, count);
        free(octets);
        if (kind < KINDS && kinds[kind] != NULL)
            add(kept->others, "", (const uint8_t *)kinds[kind], strlen(kinds[kind]));
        if (head[0] & LAST) return;
        at += 4 + (off_t)count;
    }
}

void others_find(struct kept *kept, int fd, bool has_cues) {
    struct chunks chunks;
    char first[4] = "";
    kept->others[0] = '\0';
    if (pread(fd, first, sizeof first, 0) == sizeof first && memcmp(first, "fLaC", 4) == 0) find_blocks(kept, fd);
    else if (chunks_begin(&chunks, fd) && !chunks.wide) find_chunks(kept, &chunks, has_cues);
}
