/* A log, read a buffer at a time, and what the receiver makes of each of its records. */
#include <err.h>
#include <errno.h>
#include <fcntl.h>
#include <stdlib.h>
#include <string.h>
#include <unistd.h>

#include "desk.h"

enum { BUFFER = 1024 * RIME_RECORD_OCTETS };
enum { LONGEST_HEADER = 9 }; /* three numbers of at most three octets */

int reading_open(struct reading *reading, const char *name, bool quiet) {
    memset(reading, 0, sizeof *reading);
    reading->name = shown(name, false);
    reading->fd = strcmp(name, "-") == 0 ? STDIN_FILENO : open(name, O_RDONLY | O_CLOEXEC);
    if (reading->fd < 0) return say_failed(name);
    reading->buffer = malloc(BUFFER);
    if (reading->buffer == NULL) err(STATUS_FILE, "%s", name);
    whole_begin(&reading->whole, reading->fd);
    progress_begin(reading->name, reading->whole.length, quiet);
    return STATUS_WELL;
}

void reading_close(struct reading *reading) {
    progress_end();
    if (reading->fd > STDIN_FILENO) close(reading->fd);
    free(reading->buffer);
    reading->buffer = NULL;
}

/* Reads until so many octets are held from the place on, or all that there are. */
static bool fill(struct reading *reading, size_t count) {
    reading->held -= reading->place;
    memmove(reading->buffer, reading->buffer + reading->place, reading->held);
    reading->place = 0;
    while (reading->held < count && !reading->ended) {
        ssize_t got = read(reading->fd, reading->buffer + reading->held, BUFFER - reading->held);
        if (got < 0 && errno == EINTR) continue;
        if (got < 0) {
            progress_end();
            say_failed(reading->name);
            return false;
        }
        reading->ended = got == 0;
        reading->held += (size_t)got;
        reading->octets += (uint64_t)got;
    }
    progress_at(reading->octets);
    return true;
}

/* Sees that so many octets are held from the place on, or all that there are. */
static inline bool hold(struct reading *reading, size_t count) {
    return reading->held - reading->place >= count || reading->ended || fill(reading, count);
}

/* What was read so far is still there, and where the end was met, it is that of the file. Says what is wrong. */
static bool is_whole(struct reading *reading) {
    progress_clear();
    return whole_end(&reading->whole, reading->name, reading->octets, reading->ended);
}

int reading_header(struct reading *reading) {
    if (!hold(reading, LONGEST_HEADER)) return -1;
    uint32_t *header = reading->header;
    unsigned refusal = rime_log_header(reading->buffer, reading->held, header);
    if (refusal == RIME_DONE)
        refusal = rime_receiver_open(header[RIME_HEADER_FORMAT], header[RIME_HEADER_CHANNELS],
                                     header[RIME_HEADER_ORDER], reading->state);
    if (refusal != RIME_DONE) return is_whole(reading) ? (int)refusal : -1;
    reading->now = &reading->rooms[0];
    reading->held_back = &reading->rooms[1];
    reading->place = header[RIME_HEADER_PLACE];
    reading->format = format_of(header[RIME_HEADER_FORMAT]);
    reading->channels = header[RIME_HEADER_CHANNELS];
    if (!reading->format.overhead) reading->slips.off = true;
    reading->times = reading->format.slots / reading->channels;
    reading->entries = reading->channels * reading->times;
    return RIME_DONE;
}

/* The header; where there is none to go on with, that is said, and the log closed. */
int reading_start(struct reading *reading) {
    int refusal = reading_header(reading);
    if (refusal == RIME_DONE) return STATUS_WELL;
    reading->refusal = refusal < 0 ? RIME_DONE : (unsigned)refusal;
    int status = refusal < 0 ? STATUS_FILE : say_header(reading->name, reading->buffer, reading->held, reading->refusal);
    reading_close(reading);
    return status;
}

int reading_begin(struct reading *reading, const char *name, bool quiet) {
    int status = reading_open(reading, name, quiet);
    return status == STATUS_WELL ? reading_start(reading) : status;
}

int reading_twice(struct reading *reading) {
    if (spool_first(&reading->fd, reading->name, &reading->whole)) return reading_start(reading);
    reading_close(reading);
    return STATUS_FILE;
}

int reading_again(struct reading *reading) {
    if (lseek(reading->fd, (off_t)reading->whole.start, SEEK_SET) < 0) {
        int status = say_failed(reading->name);
        reading_close(reading);
        return status;
    }
    struct reading fresh = {.name = reading->name, .fd = reading->fd, .buffer = reading->buffer, .limit = reading->limit,
                            .slips = {.off = reading->slips.off}};
    *reading = fresh;
    whole_begin(&reading->whole, reading->fd);
    return reading_start(reading);
}

static enum step taken(struct reading *reading) {
    unsigned missing = reading->report[RIME_REPORT_MISSING];
    reading->samples = reading->now->samples;
    reading->ancillary = reading->now->ancillary;
    reading->marks = reading->now->marks;
    reading->given = (missing + 1) * reading->entries;
    reading->sound++;
    reading->missing += missing;
    reading->gaps += missing > 0;
    reading->refused_last = 0;
    return STEP_SOUND;
}

/* Whether the limit lies before a place of what is held. */
static bool past_limit(const struct reading *reading, uint64_t place) {
    return reading->limit != 0 && reading->octets - reading->held + place > reading->limit;
}

enum step reading_step(struct reading *reading) {
    reading->time += reading->given / reading->channels;
    reading->given = 0;
    if (!hold(reading, RIME_RECORD_OCTETS)) return STEP_FAILED;
    uint64_t found[RIME_RECORD];
    reading->refusal = rime_log_record(reading->buffer, reading->held, reading->place, found);
    uint64_t past = reading->refusal == RIME_DONE ? found[RIME_RECORD_NEXT] : reading->held;
    if (reading->refusal != RIME_REFUSED_LOG_NUMBER && past_limit(reading, past))
        reading->refusal = RIME_REFUSED_LOG_LENGTH;
    bool broken = reading->refusal != RIME_DONE;
    if (broken || found[RIME_RECORD_WHAT] == RIME_RECORD_IS_END) {
        if (!is_whole(reading)) return STEP_FAILED;
        return broken ? STEP_BROKEN : STEP_END;
    }
    reading->cell = reading->buffer + found[RIME_RECORD_START];
    reading->indication = found[RIME_RECORD_INDICATION] == 1;
    reading->place = found[RIME_RECORD_NEXT];
    reading->refusal =
        rime_receive(reading->state, reading->cell, RIME_CELL_OCTETS, reading->indication, reading->now->samples, DESK_ROOM,
                     reading->now->ancillary, DESK_ROOM, reading->now->marks, DESK_ROOM, reading->report);
    reading->record++;
    if (reading->refusal == RIME_DONE) return taken(reading);
    reading->refused++;
    reading->refused_by[reading->refusal]++;
    reading->refused_last++;
    return STEP_REFUSED;
}

int reading_broken(const struct reading *reading) {
    return say_broken(reading->name, reading->record, reading->refusal);
}
