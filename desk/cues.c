/* Cue points of a sound file. */
#include "cues.h"

#include <err.h>
#include <stdlib.h>
#include <string.h>

void cues_add(struct cues *cues, uint32_t at, uint32_t length, const char *name, size_t name_length) {
    if (cues->count == cues->room) {
        cues->room = cues->room * 2 + 64;
        cues->list = reallocarray(cues->list, cues->room, sizeof *cues->list);
        if (cues->list == NULL) err(STATUS_FILE, "the cue points");
    }
    char *own = strndup(name, name_length);
    if (own == NULL) err(STATUS_FILE, "the cue points");
    cues->list[cues->count++] = (struct cue){.at = at, .length = length, .name = own};
}

/* A sample of a cue point has 32 bits. */
void cues_show(struct cues *cues, const struct stretch *stretch) {
    uint64_t length = stretch->past - stretch->from;
    if (cues->shown == CUES_SHOWN || stretch->from > UINT32_MAX) {
        cues->left_out++;
        return;
    }
    char words[STRETCH_LINE];
    size_t count = stretch_words(stretch, words);
    cues_add(cues, (uint32_t)stretch->from, length > UINT32_MAX ? UINT32_MAX : (uint32_t)length, words, count);
    cues->shown++;
}

void cues_free(struct cues *cues) {
    for (size_t at = 0; at < cues->count; at++) free(cues->list[at].name);
    free(cues->list);
    *cues = (struct cues){0};
}

/* The points are numbered from 1. libsndfile reads no name behind a length: all names come first. */
static void put_names(const struct cues *cues, struct tail *tail) {
    size_t all = tail_begin(tail, "LIST");
    tail_put(tail, "adtl", 4);
    for (size_t at = 0; at < cues->count; at++) {
        if (cues->list[at].name[0] == '\0') continue;
        size_t one = tail_begin(tail, "labl");
        tail_number(tail, at + 1, 4);
        tail_put(tail, cues->list[at].name, strlen(cues->list[at].name) + 1);
        tail_end(tail, one);
    }
    for (size_t at = 0; at < cues->count; at++) {
        if (cues->list[at].length == 0) continue;
        size_t one = tail_begin(tail, "ltxt");
        tail_number(tail, at + 1, 4);
        tail_number(tail, cues->list[at].length, 4);
        tail_put(tail, "rgn ", 4);
        tail_number(tail, 0, 8); /* country, language, dialect, code page */
        tail_end(tail, one);
    }
    tail_end(tail, all);
}

void cues_put(const struct cues *cues, struct tail *tail) {
    if (cues->count == 0) return;
    size_t all = tail_begin(tail, "cue ");
    tail_number(tail, cues->count, 4);
    for (size_t at = 0; at < cues->count; at++) {
        tail_number(tail, at + 1, 4);
        tail_number(tail, cues->list[at].at, 4);
        tail_put(tail, "data", 4);
        tail_number(tail, 0, 8);
        tail_number(tail, cues->list[at].at, 4);
    }
    tail_end(tail, all);
    put_names(cues, tail);
}

bool cues_set(const struct cues *cues, SNDFILE *file) {
    size_t size = sizeof(uint32_t) + cues->count * sizeof(SF_CUE_POINT);
    SF_CUES *set = calloc(1, size);
    if (set == NULL) err(STATUS_FILE, "the cue points");
    set->cue_count = (uint32_t)cues->count;
    SF_CUE_POINT *points = set->cue_points;
    for (size_t at = 0; at < cues->count; at++) {
        points[at].indx = (int32_t)at + 1;
        points[at].position = points[at].sample_offset = cues->list[at].at;
        strncpy(points[at].name, cues->list[at].name, sizeof points[at].name - 1);
    }
    bool taken = sf_command(file, SFC_SET_CUE, set, (int)size) == SF_TRUE;
    free(set);
    return taken;
}

/* Those that libsndfile gives. */
static bool read_theirs(struct cues *cues, SNDFILE *file) {
    uint32_t count = 0;
    if (sf_command(file, SFC_GET_CUE_COUNT, &count, sizeof count) != SF_TRUE || count == 0) return true;
    if (count > CUES_MOST) return false;
    size_t size = sizeof(uint32_t) + count * sizeof(SF_CUE_POINT);
    SF_CUES *got = calloc(1, size);
    if (got == NULL) err(STATUS_FILE, "the cue points");
    bool given = sf_command(file, SFC_GET_CUE, got, (int)size) == SF_TRUE;
    SF_CUE_POINT *points = got->cue_points;
    for (uint32_t at = 0; given && at < count && at < got->cue_count; at++)
        cues_add(cues, points[at].sample_offset, 0, points[at].name, sizeof points[at].name);
    free(got);
    return given;
}

/* The number of a point, and which of them it is. */
struct numbered {
    uint32_t number, at;
};

static int by_number(const void *one, const void *other) {
    uint32_t a = ((const struct numbered *)one)->number, b = ((const struct numbered *)other)->number;
    return a < b ? -1 : a > b;
}

/* The points of a chunk `cue `, and their numbers in order. */
static bool read_points(struct cues *cues, const struct chunks *chunks, struct numbered **numbers) {
    enum { POINT = 24, OFFSET = 20 };
    uint8_t *octets = chunks_read(chunks, 4 + CUES_MOST * POINT);
    uint64_t count = octets == NULL || chunks->length < 4 ? UINT64_MAX : chunks_number(octets, 4, chunks->top);
    bool good = count != UINT64_MAX && count <= (chunks->length - 4) / POINT;
    *numbers = calloc(good ? count + 1 : 1, sizeof **numbers);
    if (*numbers == NULL) err(STATUS_FILE, "the cue points");
    for (uint64_t at = 0; good && at < count; at++) {
        const uint8_t *point = octets + 4 + at * POINT;
        (*numbers)[at] = (struct numbered){(uint32_t)chunks_number(point, 4, chunks->top), (uint32_t)at};
        cues_add(cues, (uint32_t)chunks_number(point + OFFSET, 4, chunks->top), 0, "", 0);
    }
    qsort(*numbers, cues->count, sizeof **numbers, by_number);
    free(octets);
    return good;
}

/* A name, or a length, of the point that has its number. */
static void read_beside(struct cues *cues, const struct numbered *numbers, const uint8_t *chunk, size_t count,
                        bool top) {
    bool name = memcmp(chunk, "labl", 4) == 0, length = memcmp(chunk, "ltxt", 4) == 0;
    const uint8_t *from = chunk + 8;
    if (!(name && count >= 4) && !(length && count >= 8)) return;
    struct numbered wanted = {.number = (uint32_t)chunks_number(from, 4, top)};
    const struct numbered *found = bsearch(&wanted, numbers, cues->count, sizeof wanted, by_number);
    if (found == NULL) return;
    struct cue *cue = &cues->list[found->at];
    if (length) {
        cue->length = (uint32_t)chunks_number(from + 4, 4, top);
        return;
    }
    free(cue->name);
    cue->name = strndup((const char *)from + 4, count - 4);
    if (cue->name == NULL) err(STATUS_FILE, "the cue points");
}

/* What stands in a chunk LIST adtl. */
static bool read_names(struct cues *cues, const struct chunks *chunks, const struct numbered *numbers) {
    uint8_t *octets = chunks_read(chunks, CUES_OCTETS);
    if (octets == NULL) return false;
    for (size_t at = 4; at + 8 <= chunks->length;) {
        uint64_t length = chunks_number(octets + at + 4, 4, chunks->top);
        if (length > chunks->length - at - 8) break;
        read_beside(cues, numbers, octets + at, length, chunks->top);
        at += 8 + length + length % 2;
    }
    free(octets);
    return true;
}

bool cues_read(struct cues *cues, struct sound_in *in) {
    struct chunks chunks;
    if (!chunks_begin(&chunks, in->fd) || chunks.aiff || chunks.wide) return read_theirs(cues, in->file);
    bool good = true;
    struct numbered *numbers = NULL;
    struct chunks first = chunks;
    for (bool there = true; there && numbers == NULL; there = chunks_next(&chunks))
        if (chunks_is(&chunks, "cue ")) good = read_points(cues, &chunks, &numbers);
    for (bool there = cues->count > 0; there && good; there = chunks_next(&first))
        if (chunks_is_list(&first, "adtl")) good = read_names(cues, &first, numbers);
    free(numbers);
    return good;
}
