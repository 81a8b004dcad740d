/* The chunks of a sound file, and chunks that are put behind its sound. */
#include "chunks.h"

#include <err.h>
#include <errno.h>
#include <stdlib.h>
#include <string.h>
#include <sys/stat.h>
#include <unistd.h>

/* The most octets of a file whose lengths have 32 bits. */
#ifndef SOUND_RIFF_OCTETS
#define SOUND_RIFF_OCTETS 0xFFFFFFFF
#endif

uint64_t chunks_number(const uint8_t *octets, unsigned count, bool top) {
    uint64_t sum = 0;
    for (unsigned at = 0; at < count; at++) sum = sum << 8 | octets[top ? at : count - 1 - at];
    return sum;
}

bool chunks_is(const struct chunks *chunks, const char *name) {
    return memcmp(chunks->name, name, 4) == 0;
}

bool chunks_is_list(const struct chunks *chunks, const char *kind) {
    uint8_t first[4];
    return chunks_is(chunks, "LIST") && chunks->length >= sizeof first &&
           pread(chunks->fd, first, sizeof first, (off_t)chunks->at) == sizeof first && memcmp(first, kind, 4) == 0;
}

/* Goes to the chunk that begins at a place. */
static bool go_to(struct chunks *chunks, uint64_t place) {
    enum { NARROW = 8, WIDE = 24 };
    uint8_t octets[WIDE];
    unsigned count = chunks->wide ? WIDE : NARROW;
    if (place > INT64_MAX || pread(chunks->fd, octets, count, (off_t)place) != (ssize_t)count) return false;
    memcpy(chunks->name, octets, 4);
    chunks->at = place + count;
    chunks->length =
        chunks->wide ? chunks_number(octets + 16, 8, false) - WIDE : chunks_number(octets + 4, 4, chunks->top);
    uint8_t lengths[16];
    if (chunks_is(chunks, "ds64") && pread(chunks->fd, lengths, 16, (off_t)chunks->at) == 16)
        chunks->long_data = chunks_number(lengths + 8, 8, false);
    return true;
}

bool chunks_begin(struct chunks *chunks, int fd) {
    struct stat about;
    char first[40] = "";
    if (fstat(fd, &about) != 0 || pread(fd, first, sizeof first, 0) < 4) return false;
    *chunks = (struct chunks){.fd = fd, .end = (uint64_t)about.st_size, .long_data = UINT64_MAX};
    bool turned = memcmp(first, "RIFX", 4) == 0;
    chunks->aiff = memcmp(first, "FORM", 4) == 0;
    chunks->wide = memcmp(first, "riff", 4) == 0;
    chunks->top = chunks->aiff || turned;
    bool wave = memcmp(first, "RIFF", 4) == 0 || memcmp(first, "RF64", 4) == 0;
    return (chunks->aiff || chunks->wide || wave || turned) && go_to(chunks, chunks->wide ? 40 : 12);
}

bool chunks_next(struct chunks *chunks) {
    enum { MOST = 10000 }; /* more chunks no file has */
    uint64_t align = chunks->wide ? 7 : 1, length = chunks->length;
    if (length == 0xFFFFFFFF && chunks_is(chunks, "data") && chunks->long_data != UINT64_MAX)
        length = chunks->long_data;
    if (length > chunks->end || ++chunks->seen > MOST) return false;
    return go_to(chunks, chunks->at + ((length + align) & ~align));
}

uint8_t *chunks_read(const struct chunks *chunks, size_t most) {
    if (chunks->length > most || chunks->at > chunks->end || chunks->length > chunks->end - chunks->at) return NULL;
    uint8_t *octets = malloc(chunks->length + 1);
    if (octets == NULL) err(STATUS_FILE, "a sound file");
    octets[chunks->length] = 0;
    if (pread(chunks->fd, octets, chunks->length, (off_t)chunks->at) == (ssize_t)chunks->length) return octets;
    free(octets);
    return NULL;
}

void tail_put(struct tail *tail, const void *octets, size_t count) {
    if (count > tail->room - tail->count) {
        tail->room = 2 * tail->room + count + 1024;
        tail->octets = realloc(tail->octets, tail->room);
        if (tail->octets == NULL) err(STATUS_FILE, "a sound file");
    }
    if (count > 0) memcpy(tail->octets + tail->count, octets, count);
    tail->count += count;
}

static void put(uint8_t *to, uint64_t number, unsigned octets) {
    for (unsigned at = 0; at < octets; at++) to[at] = (uint8_t)(number >> 8 * at);
}

void tail_number(struct tail *tail, uint64_t number, unsigned octets) {
    uint8_t to[8];
    put(to, number, octets);
    tail_put(tail, to, octets);
}

size_t tail_begin(struct tail *tail, const char *name) {
    tail_put(tail, name, 4);
    tail_number(tail, 0, 4);
    return tail->count;
}

void tail_end(struct tail *tail, size_t begun) {
    size_t length = tail->count - begun;
    put(tail->octets + begun - 4, length, 4);
    if (length % 2 != 0) tail_number(tail, 0, 1);
}

void tail_free(struct tail *tail) {
    free(tail->octets);
    *tail = (struct tail){0};
}

/* The length of all that follows it, in 32 bits at its place, or in 64 of the chunk ds64. */
static void mend(struct output *output, const uint8_t *head, uint64_t length) {
    enum { NARROW_PLACE = 4, WIDE_PLACE = 20 };
    bool wide = memcmp(head, "RF64", 4) == 0;
    uint8_t to[8];
    unsigned octets = wide ? 8 : 4;
    put(to, length - 8, octets);
    if (pwrite(output->fd, to, octets, wide ? WIDE_PLACE : NARROW_PLACE) != (ssize_t)octets) output->error = errno;
}

bool tail_append(const struct tail *tail, struct output *output) {
    uint8_t head[4];
    off_t end = lseek(output->fd, 0, SEEK_END);
    if (end < 0 || pread(output->fd, head, sizeof head, 0) != sizeof head) {
        if (output->error == 0) output->error = EIO;
        return true;
    }
    uint64_t pad = (uint64_t)end % 2, length = (uint64_t)end + pad + tail->count;
    if (memcmp(head, "RF64", 4) != 0 && length - 8 > SOUND_RIFF_OCTETS) return false;
    if (output_write(output, "", pad) && output_write(output, tail->octets, tail->count)) mend(output, head, length);
    return true;
}
