/* Stretches of a reading that are missing or damaged, as they come. */
#ifndef STRETCHES_H
#define STRETCHES_H

#include "frequency.h"

struct stretch {
    unsigned mark;       /* RIME_MARK_MISSING or RIME_MARK_DOUBTFUL, or RIME_MARK_SOUND where none is open */
    uint64_t from, past; /* sample times: the first, and the first after it */
    uint64_t channels;   /* those that are damaged, one bit each: the same ones at each of its times */
};

struct stretches {
    struct stretch open;
};

typedef void stretch_told(const struct stretch *stretch, void *user);

/* Takes what is handed out; tells each stretch that has ended. Returns how many samples are damaged. */
uint64_t stretches_take(struct stretches *stretches, unsigned channels, const struct handed *handed, stretch_told *told,
                        void *user);
void stretches_end(struct stretches *stretches, stretch_told *told, void *user);

/* "missing: samples 600 to 683", "damaged in channels 1 and 2: sample 30001". Returns its length. */
enum { STRETCH_LINE = 512 };
size_t stretch_words(const struct stretch *stretch, char words[STRETCH_LINE]);
/* A line of an Audacity label track: start and end in seconds, and what. Returns its length. */
size_t stretch_label(const struct stretch *stretch, unsigned rate, char line[STRETCH_LINE]);

#endif
