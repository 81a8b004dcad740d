/* The sampling frequency of a log, by what its channel status says at its beginning. */
#include "frequency.h"

#include <err.h>
#include <stdio.h>
#include <stdlib.h>
#include <string.h>

#include "blocks.h"
#include "slips.h"
#include "status.h"

/* A block of one channel: the first of all that names a frequency decides. */
static void take_block(void *user, unsigned channel, const uint8_t out[RIME_OUT], uint64_t past) {
    struct frequency *frequency = user;
    (void)past;
    if (!status_counts(out)) return;
    frequency->lengths |= (uint64_t)1 << status_sample_bits(out + RIME_OUT_OCTETS);
    unsigned rate = status_rate(out + RIME_OUT_OCTETS);
    if (rate == 0) return;
    struct named *named = frequency->named;
    while (named->rate != 0 && named->rate != rate) named++;
    if (named->rate == 0) *named = (struct named){.rate = rate, .channel = channel};
    named->blocks++;
}

/* The blocks that end in the first sample times of what is held. */
static void take_blocks(struct frequency *frequency) {
    struct blocks blocks = {0};
    unsigned channels = frequency->reading->channels;
    size_t most = (size_t)FREQUENCY_TIMES * channels, given = frequency->held < most ? frequency->held : most;
    blocks_take(&blocks, channels, frequency->ancillary, frequency->marks, given, take_block, frequency);
}

static void settle(struct frequency *frequency) {
    const struct named *named = frequency->named;
    frequency->rate = frequency->asked != 0 ? frequency->asked : named->rate != 0 ? named->rate : FREQUENCY_ASSUMED;
    for (; named < frequency->named + FREQUENCY_CODES && named->rate != 0; named++) {
        if (named->rate == frequency->rate) continue;
        progress_clear();
        warnx("%s: channel status says %u Hz in %llu block%s, the first of them in channel %u: %s%u Hz is used",
              frequency->reading->name, named->rate, (unsigned long long)named->blocks, plural(named->blocks),
              named->channel + 1,
              frequency->by_sidecar     ? "the sidecar's "
              : frequency->asked != 0 ? "--rate "
                                      : "",
              frequency->rate);
        frequency->contradicted = true;
    }
}

static void hold(struct frequency *frequency) {
    const struct reading *reading = frequency->reading;
    memcpy(frequency->samples + frequency->held, reading->samples, reading->given * sizeof *reading->samples);
    memcpy(frequency->ancillary + frequency->held, reading->ancillary, reading->given);
    memcpy(frequency->marks + frequency->held, reading->marks, reading->given);
    frequency->held += reading->given;
}

/* Reads and holds the first sample times, or all that there are. */
static void hold_first(struct frequency *frequency) {
    struct reading *reading = frequency->reading;
    size_t enough = (size_t)FREQUENCY_TIMES * reading->channels, room = enough + DESK_ROOM;
    frequency->samples = malloc(room * sizeof *frequency->samples);
    frequency->ancillary = malloc(2 * room);
    if (frequency->samples == NULL || frequency->ancillary == NULL) err(STATUS_FILE, "%s", reading->name);
    frequency->marks = frequency->ancillary + room;
    while (frequency->held < enough && (frequency->step == STEP_SOUND || frequency->step == STEP_REFUSED)) {
        frequency->step = slips_step(reading);
        if (frequency->step == STEP_SOUND) hold(frequency);
    }
}

void frequency_find(struct frequency *frequency, struct reading *reading) {
    frequency->reading = reading;
    frequency->step = STEP_SOUND;
    if (reading->format.ancillary) {
        hold_first(frequency);
        take_blocks(frequency);
    }
    settle(frequency);
}

static bool hand_held(const struct frequency *frequency, handed_taken *take, void *user) {
    const struct reading *reading = frequency->reading;
    size_t most = DESK_ROOM / reading->entries * reading->entries;
    for (size_t at = 0; at < frequency->held; at += most) {
        struct handed handed = {
            .samples = frequency->samples + at,
            .ancillary = frequency->ancillary + at,
            .marks = frequency->marks + at,
            .given = frequency->held - at < most ? frequency->held - at : most,
            .time = at / reading->channels,
        };
        if (!take(&handed, user)) return false;
    }
    return true;
}

enum step frequency_walk(struct frequency *frequency, handed_taken *take, void *user) {
    struct reading *reading = frequency->reading;
    enum step step = frequency->step;
    if (!hand_held(frequency, take, user)) return step;
    while (step == STEP_SOUND || step == STEP_REFUSED) {
        step = slips_step(reading);
        if (step != STEP_SOUND) continue;
        struct handed handed = {
            .samples = reading->samples,
            .ancillary = reading->ancillary,
            .marks = reading->marks,
            .given = reading->given,
            .time = reading->time,
        };
        if (!take(&handed, user)) break;
    }
    return step;
}

bool frequency_assumed(const struct frequency *frequency) {
    return frequency->asked == 0 && frequency->named[0].rate == 0;
}

const char *frequency_by(const struct frequency *frequency) {
    if (frequency->asked != 0) return frequency->by_sidecar ? "sidecar" : "--rate";
    return frequency_assumed(frequency) ? "assumed" : "channel status";
}

const char *frequency_words(const struct frequency *frequency, char words[FREQUENCY_WORDS]) {
    static const char *const said[] = {"", ", by the sidecar", ", assumed", ", by channel status"};
    unsigned by = frequency->asked != 0 ? frequency->by_sidecar : frequency_assumed(frequency) ? 2 : 3;
    snprintf(words, FREQUENCY_WORDS, "%u Hz%s", frequency->rate, said[by]);
    return words;
}

void frequency_say(const struct frequency *frequency) {
    if (frequency->lengths == 0) return;
    fprintf(stderr, "%s: channel status says", frequency->reading->name);
    for (unsigned at = 0; at < FREQUENCY_CODES && frequency->named[at].rate != 0; at++)
        fprintf(stderr, "%s %u Hz", at > 0 ? "," : "", frequency->named[at].rate);
    if (frequency->named[0].rate == 0) fprintf(stderr, " no frequency");
    for (unsigned bits = 1; bits < 64; bits++)
        if ((frequency->lengths >> bits & 1) != 0) fprintf(stderr, ", %u bits", bits);
    fprintf(stderr, "%s\n", frequency->lengths == 1 ? ", no word length" : "");
}

void frequency_close(struct frequency *frequency) {
    free(frequency->samples);
    free(frequency->ancillary);
    frequency->samples = NULL;
    frequency->ancillary = NULL;
}
