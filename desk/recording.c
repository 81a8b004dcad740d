/* Cells from the line into logs, with the receiver beside. */
#include "recording.h"

#include <err.h>
#include <stdio.h>
#include <stdlib.h>
#include <string.h>
#include <unistd.h>

#include "told.h"

enum { LINES = 100 }; /* of one kind, at most */

static double seconds(uint64_t nanoseconds) {
    return (double)nanoseconds / 1e9;
}

static double samples(const struct recording *recording, uint64_t times) {
    return (double)times / recording->rate;
}

double recording_silence(const struct recording *recording) {
    return samples(recording, recording->silent_most);
}

/* A line with the time before it. */
static void say(const struct recording *recording, const char *words, double length) {
    char time[DURATION], lasting[DURATION];
    if (recording->quiet) return;
    uint64_t passed = recording->now > recording->begun ? recording->now - recording->begun : 0;
    told_clear();
    fprintf(stderr, "%s: %s%s\n", duration(seconds(passed), time), words, duration(length, lasting));
}

/* No later piece may be there either: it would end a recording in the middle. */
static int see_names(const struct recording *recording) {
    for (unsigned piece = 1; piece <= recording->pieces; piece++) {
        char *name = lasting_name(recording->name, piece);
        bool there = access(name, F_OK) == 0;
        if (there) say_unfit(name, "is there already, and is kept");
        free(name);
        if (there) return STATUS_FILE;
    }
    return STATUS_WELL;
}

int recording_open(struct recording *recording) {
    struct settings settings = recording->settings;
    unsigned refusal = rime_receiver_open(settings.format, settings.channels, settings.order, recording->state);
    if (refusal != RIME_DONE) return say_settings(recording->name, "the receiver is", refusal, settings);
    recording->format = format_of(settings.format);
    recording->times = recording->format.slots / settings.channels;
    recording->entries = settings.channels * recording->times;
    if (!recording->format.overhead) recording->gap = 0;
    int status = see_names(recording);
    if (status == STATUS_WELL) status = lasting_open(&recording->lasting, recording->name, 1, settings);
    if (status != STATUS_WELL) return status;
    recording->logs = 1;
    if (recording->room > 0 && !lasting_reserve(&recording->lasting, recording->room, true)) return STATUS_FILE;
    return lasting_sync(&recording->lasting) ? STATUS_WELL : STATUS_FILE;
}

/* The next log. What is left of the room goes with it. */
static bool next_log(struct recording *recording) {
    struct lasting *lasting = &recording->lasting;
    uint64_t used = lasting->octets + lasting->used;
    recording->full = recording->most - used < RIME_HEADER_OCTETS + RIME_RECORD_OCTETS;
    if (recording->full) return false;
    if (!lasting_close(lasting) || lasting_open(lasting, recording->name, recording->logs + 1, recording->settings) != STATUS_WELL)
        return false;
    recording->logs++;
    recording->room = recording->room > used ? recording->room - used : 0;
    recording->most -= recording->most == UINT64_MAX ? 0 : used;
    return recording->room == 0 || lasting_reserve(lasting, recording->room, false);
}

/*
 * What is missing before the last sound cell, once its successor came: by the numbers of cells and second numbers, or
 * by the sequence numbers where they say more. A gap that is longer than numbers tell is found by second numbers, or
 * what follows stands in a wrong place.
 */
static void settle(struct recording *recording) {
    struct before *taken = &recording->taken;
    uint64_t missing = taken->told > taken->away ? taken->told : taken->away, all = taken->away + taken->turned;
    if (missing == 0 && all == 0) return;
    recording->missing += missing;
    recording->gaps += missing > 0;
    recording->time += taken->told * recording->times;
    bool found = taken->away == 0 || all <= RIME_MOST_MISSING || taken->told == all || recording->past_pieces > 0;
    if (!found && recording->unplaced++ < LINES) {
        told_clear();
        warnx("%s: %llu cells are lost before record %llu, and second numbers tell %llu: what follows may stand in a "
              "wrong place",
              recording->lasting.path == NULL ? recording->name : recording->lasting.path, (unsigned long long)all,
              (unsigned long long)taken->record, (unsigned long long)taken->told);
    }
    *taken = (struct before){0};
}

/* There may be no more logs: this one goes on. */
static void say_last(struct recording *recording, const char *why) {
    if (recording->past_pieces++ > 0) return;
    told_clear();
    warnx("%s: %s after record %llu, and %u logs is the most: from here on cells may stand in a wrong place",
          recording->lasting.path, why, (unsigned long long)recording->lasting.records, recording->pieces);
}

/* A new log, in which the receiver begins anew: the place of what follows isn't known, or it is another sender's. */
static bool begin_piece(struct recording *recording, const char *why) {
    uint64_t away = recording->here.away, record = recording->lasting.records;
    if (record > 0 && recording->cuts + 1 >= recording->pieces) {
        say_last(recording, why);
        return true;
    }
    settle(recording);
    recording->missing += away;
    recording->gaps += away > 0;
    recording->here = (struct before){0};
    if (record == 0) return true;
    recording->cuts++;
    char *before = strdup(recording->lasting.path);
    bool good = next_log(recording);
    told_clear();
    if (good && before != NULL)
        warnx("%s begins: %s after record %llu of %s, %llu cell%s lost", recording->lasting.path, why,
              (unsigned long long)record, before, (unsigned long long)away, plural(away));
    free(before);
    memset(recording->watch, 0, sizeof recording->watch);
    rime_receiver_open(recording->settings.format, recording->settings.channels, recording->settings.order,
                       recording->state);
    return good;
}

/* The log is as long as a log can be. The receiver goes on, but its count of cells placed is that of one log. */
static bool begin_length(struct recording *recording) {
    memset(recording->state + RIME_RECEIVER_COUNT, 0, sizeof(uint32_t));
    return next_log(recording);
}

static void hear(struct recording *recording, uint64_t missing, bool heard) {
    recording->silent += missing * recording->times;
    if (!heard) recording->silent += recording->times;
    if (recording->silent > recording->silent_most) recording->silent_most = recording->silent;
    double length = samples(recording, recording->silent);
    if (!recording->is_silent && length >= seconds(recording->silence)) {
        recording->is_silent = true;
        say(recording, "nothing but silence for ", length);
    }
    if (!heard) return;
    if (recording->is_silent) say(recording, "sound again, after silence of ", length);
    recording->is_silent = false;
    recording->silent = 0;
    recording->heard++;
}

/* What second numbers tell: cells that are missing before the last sound cell, beside those told of it. */
static void slip(struct recording *recording, const uint8_t report[RIME_REPORT]) {
    uint8_t slipped[RIME_SLIPPED];
    if (!recording->format.overhead || rime_slip(recording->watch, report, slipped) != RIME_DONE) return;
    if (slipped[RIME_SLIPPED_WHAT] == RIME_SLIP_BEFORE) recording->taken.told += slipped[RIME_SLIPPED_CELLS];
}

/* A repeat behind a gap is a cell of its own, which has the number of the last one by chance. */
static void refuse(struct recording *recording, unsigned refusal) {
    recording->refused++;
    recording->refused_by[refusal]++;
    recording->here.turned += refusal != RIME_REFUSED_REPEAT || recording->here.away > 0;
}

/* What the receiver makes of a cell. */
static void judge(struct recording *recording, const uint8_t cell[RIME_CELL_OCTETS], bool indication) {
    static uint64_t values[DESK_ROOM];
    static uint8_t ancillary[DESK_ROOM], marks[DESK_ROOM];
    uint8_t report[RIME_REPORT];
    unsigned refusal = rime_receive(recording->state, cell, RIME_CELL_OCTETS, indication, values, DESK_ROOM, ancillary,
                                    DESK_ROOM, marks, DESK_ROOM, report);
    if (refusal != RIME_DONE) {
        refuse(recording, refusal);
        return;
    }
    slip(recording, report);
    settle(recording);
    uint64_t told = report[RIME_REPORT_MISSING];
    bool heard = false;
    size_t first = told * recording->entries;
    for (size_t at = first; at < first + recording->entries; at++) {
        recording->damaged += marks[at] == RIME_MARK_DOUBTFUL;
        heard |= marks[at] == RIME_MARK_SOUND && values[at] != 0;
    }
    recording->sound++;
    recording->time += recording->times;
    recording->taken = (struct before){recording->here.away, recording->here.turned, told, recording->lasting.records - 1};
    recording->here = (struct before){0};
    hear(recording, told, heard);
}

static bool put_cell(struct recording *recording, const uint8_t cell[RIME_CELL_OCTETS], bool indication) {
    struct lasting *lasting = &recording->lasting;
    const struct before *here = &recording->here;
    bool gap = here->away > 0 && here->away + here->turned > recording->gap;
    if (gap && !begin_piece(recording, "a gap")) return false;
    if (lasting->records == LASTING_RECORDS && !begin_length(recording)) return false;
    if (lasting->octets + lasting->used + RIME_RECORD_OCTETS > recording->most) {
        recording->full = true;
        return false;
    }
    recording->cells++;
    if (!lasting_put(lasting, cell, indication)) return false;
    judge(recording, cell, indication);
    return true;
}

static void came(struct recording *recording, uint64_t now) {
    if (now <= recording->last) return;
    if (recording->is_off) say(recording, "cells again, after ", seconds(now - recording->last));
    recording->is_off = false;
    recording->last = now;
}

bool recording_turn(const struct turn *turn, void *user) {
    struct recording *recording = user;
    const uint8_t *octets = turn->datagram.octets;
    if (turn->again && !begin_piece(recording, "the sender began again")) return false;
    recording->lost += turn->lost;
    recording->here.away += turn->lost * turn->each;
    for (size_t at = WIRE_FRONT; at < turn->datagram.count; at += WIRE_CELL) {
        bool indication;
        enum wire why = wire_header(octets + at, &recording->circuit, &indication);
        if (why != WIRE_TAKEN) {
            recording->not_taken[why]++;
            continue;
        }
        came(recording, turn->datagram.came);
        if (!put_cell(recording, octets + at + WIRE_HEADER, indication)) return false;
    }
    return true;
}

void recording_at(struct recording *recording, uint64_t now) {
    recording->now = now;
    uint64_t off = now > recording->last ? now - recording->last : 0;
    if (recording->is_off || off < recording->silence) return;
    recording->is_off = true;
    say(recording, "NO CELL for ", seconds(off));
}

bool recording_close(struct recording *recording) {
    settle(recording);
    recording->missing += recording->here.away;
    recording->gaps += recording->here.away > 0;
    recording->here = (struct before){0};
    return recording->lasting.fd < 0 || lasting_close(&recording->lasting);
}
