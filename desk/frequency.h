/*
 * The sampling frequency of a log. Its header doesn't have it, and channel status may: what the first sample times bring
 * is held until it is known, from a pipe too.
 */
#ifndef FREQUENCY_H
#define FREQUENCY_H

#include "desk.h"

enum { FREQUENCY_TIMES = 4800 };    /* sample times in which channel status is looked at: 25 blocks */
enum { FREQUENCY_ASSUMED = 48000 }; /* source document 002, byte 0: "Receiver default to 48 kHz" */
enum { FREQUENCY_CODES = 3 };       /* that channel status has */

/* Entries of whole cells, as the receiver hands them out, and the sample times before them. */
struct handed {
    const uint64_t *samples;
    const uint8_t *ancillary, *marks;
    size_t given;
    uint64_t time;
};
typedef bool handed_taken(const struct handed *handed, void *user); /* false where no more is wanted */

struct frequency {
    unsigned asked;  /* by --rate or a sidecar, 0 where neither gives it */
    bool by_sidecar; /* it is a sidecar's */

    unsigned rate;      /* that is used */
    uint64_t lengths;   /* bit N: channel status says words of N bits */
    bool contradicted;  /* channel status names another than the one used; that was said */
    struct named {
        unsigned rate, channel; /* the channel that named it first, counted from 0 */
        uint64_t blocks;
    } named[FREQUENCY_CODES]; /* what channel status names, the first first; a rate of 0 ends it */

    struct reading *reading;
    uint64_t *samples; /* what is held */
    uint8_t *ancillary, *marks;
    size_t held;
    enum step step; /* the last that was made for it */
};

/* Reads the first sample times, settles the frequency, and says what channel status has otherwise. */
void frequency_find(struct frequency *frequency, struct reading *reading);
/* Hands out what is held, at most DESK_ROOM entries at a time, and then the rest of the log. Returns the last step. */
enum step frequency_walk(struct frequency *frequency, handed_taken *take, void *user);
bool frequency_assumed(const struct frequency *frequency); /* nothing says it */
const char *frequency_by(const struct frequency *frequency); /* what says it: "--rate", "sidecar", "channel status", "assumed" */
/* "44100 Hz, by channel status", "48000 Hz, assumed", "96000 Hz" */
enum { FREQUENCY_WORDS = 40 };
const char *frequency_words(const struct frequency *frequency, char words[FREQUENCY_WORDS]);
/* A line on standard error with what channel status says, where it says anything that counts. */
void frequency_say(const struct frequency *frequency);
void frequency_close(struct frequency *frequency);

#endif
