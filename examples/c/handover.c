/*
 * A reading handed over: a sender, a line that loses one cell and spoils another, and a receiver. Prints what was
 * handed out with its marks. The examples in Rust and Python print the same.
 */
#include <inttypes.h>
#include <stdio.h>

#include "rimesatchel.h"

enum { FORMAT = 0x56, CHANNELS = 2, TIMES = 6, ENTRIES = CHANNELS * TIMES, ROOM = 15 * ENTRIES };
enum { CELLS = 4, LOST = 1, SPOILED = 3 };

/* What is answered of a channel status block, by RIME_STATUS_NONE, _DOES_NOT_FIT, _FITS and _NONE_CARRIED. */
static const char *const answers[] = {"neither", "doesn't fit", "fits", "none carried"};

static const char *const marks_said[] = {"sound", "doubtful", "missing"};

struct runs {
    uint64_t samples[ROOM];
    uint8_t ancillary[ROOM];
    uint8_t marks[ROOM];
};

static const char *on_the_line(unsigned cell) {
    return cell == LOST ? " The line loses it." : cell == SPOILED ? " The line turns over its first bit." : "";
}

static void say_refused(const char *what, uint8_t refusal) {
    printf("%s: refused %u, %s.\n", what, refusal, rime_refusal_text(refusal));
}

static void print_entries(const struct runs *runs, unsigned cells) {
    for (unsigned entry = 0; entry < cells * ENTRIES; entry += CHANNELS) {
        for (unsigned channel = 0; channel < CHANNELS; channel++) {
            unsigned at = entry + channel;
            printf("%s%" PRIu64 " %s", channel == 0 ? "  " : ", ", runs->samples[at], marks_said[runs->marks[at]]);
        }
        printf("\n");
    }
}

static uint8_t send(uint8_t *sender, unsigned cell, uint8_t *octets) {
    uint64_t samples[ENTRIES];
    uint8_t ancillary[ENTRIES] = {0};
    for (unsigned entry = 0; entry < ENTRIES; entry++)
        samples[entry] = 1000 * cell + 10 * (entry / CHANNELS) + entry % CHANNELS;
    return rime_send(sender, false, samples, ENTRIES, ancillary, ENTRIES, octets, RIME_CELL_OCTETS);
}

static void receive(uint8_t *receiver, const uint8_t *octets) {
    struct runs runs;
    uint8_t report[RIME_REPORT];
    uint8_t refusal = rime_receive(receiver, octets, RIME_CELL_OCTETS, false, runs.samples, ROOM, runs.ancillary, ROOM,
                                   runs.marks, ROOM, report);
    if (refusal != RIME_DONE) {
        say_refused("Receiving", refusal);
        return;
    }
    printf("Received number %u, %u missing before it.\n", report[RIME_REPORT_NUMBER], report[RIME_REPORT_MISSING]);
    print_entries(&runs, report[RIME_REPORT_MISSING] + 1u);
}

/* A whole block of zeros, bit by bit, as a home recorder sends it: B in the first entry, and no C bit. */
static uint8_t consumer_block(void) {
    uint8_t block[RIME_BLOCK] = {0}, out[RIME_OUT], refusal = RIME_DONE;
    for (unsigned bit = 0; refusal == RIME_DONE && bit < 192; bit++)
        refusal = rime_status_step(block, bit == 0 ? 8 : 0, RIME_MARK_SOUND, out);
    if (refusal == RIME_DONE) printf("A block of consumer use: %s.\n", answers[out[RIME_OUT_ANSWER]]);
    return refusal;
}

int main(void) {
    uint8_t sender[RIME_SENDER_STATE], receiver[RIME_RECEIVER_STATE], octets[RIME_CELL_OCTETS];
    uint8_t refusal = rime_sender_open(FORMAT, 13, 0, 0, false, 0, sender);
    if (refusal != RIME_DONE) say_refused("Opening a sender of 13 channels", refusal);
    refusal = rime_sender_open(FORMAT, CHANNELS, 0, 0, false, 0, sender);
    if (refusal == RIME_DONE) refusal = rime_receiver_open(FORMAT, CHANNELS, 0, receiver);
    for (unsigned cell = 0; refusal == RIME_DONE && cell < CELLS; cell++) {
        refusal = send(sender, cell, octets);
        if (refusal != RIME_DONE) break;
        printf("Sent number %u.%s\n", cell, on_the_line(cell));
        if (cell == LOST) continue;
        if (cell == SPOILED) octets[0] ^= 0x80;
        receive(receiver, octets);
    }
    if (refusal != RIME_DONE) {
        say_refused("The reading", refusal);
        return 1;
    }
    printf("The line delivers the last cell again.\n");
    receive(receiver, octets);
    printf("Cells placed since the opening: %" PRIu32 ".\n", rime_receiver_placed(receiver));
    refusal = consumer_block();
    if (refusal != RIME_DONE) {
        say_refused("The block", refusal);
        return 1;
    }
    return 0;
}
