/* Stretches of a reading that are missing or damaged. */
#include "stretches.h"

#include <stdio.h>
#include <string.h>

/* What stands at one sample time: missing, damaged in some channels, or sound. */
static struct stretch at_time(unsigned channels, uint64_t time, const uint8_t *marks) {
    struct stretch here = {.mark = RIME_MARK_SOUND, .from = time, .past = time + 1};
    for (unsigned channel = 0; channel < channels; channel++) {
        if (marks[channel] == RIME_MARK_SOUND) continue;
        here.mark = marks[channel];
        if (marks[channel] == RIME_MARK_DOUBTFUL) here.channels |= (uint64_t)1 << channel;
    }
    return here;
}

void stretches_end(struct stretches *stretches, stretch_told *told, void *user) {
    if (stretches->open.mark != RIME_MARK_SOUND) told(&stretches->open, user);
    stretches->open.mark = RIME_MARK_SOUND;
}

/* Whether all marks are RIME_MARK_SOUND, which is 0. Nearly always they are. */
static bool are_sound(const uint8_t *marks, size_t count) {
    uint64_t any = 0, eight;
    for (; count >= sizeof eight; count -= sizeof eight, marks += sizeof eight) {
        memcpy(&eight, marks, sizeof eight);
        any |= eight;
    }
    while (count > 0) any |= marks[--count];
    return any == RIME_MARK_SOUND;
}

uint64_t stretches_take(struct stretches *stretches, unsigned channels, const struct handed *handed, stretch_told *told,
                        void *user) {
    if (are_sound(handed->marks, handed->given)) {
        stretches_end(stretches, told, user);
        return 0;
    }
    uint64_t damaged = 0, time = handed->time;
    for (size_t at = 0; at < handed->given; at++) damaged += handed->marks[at] == RIME_MARK_DOUBTFUL;
    for (size_t at = 0; at < handed->given; at += channels, time++) {
        struct stretch here = at_time(channels, time, handed->marks + at), *open = &stretches->open;
        if (here.mark == open->mark && here.channels == open->channels) {
            open->past = here.past;
        } else {
            stretches_end(stretches, told, user);
            *open = here;
        }
    }
    return damaged;
}

/* " in channel 2", " in channels 1 and 2", " in channels 1, 2 and 5". */
static int say_channels(uint64_t channels, char *to, size_t room) {
    int length = snprintf(to, room, " in channel%s", channels & (channels - 1) ? "s" : "");
    unsigned count = 0;
    for (unsigned channel = 0; channel < 64; channel++) {
        if ((channels >> channel & 1) == 0) continue;
        bool last = channels >> channel == 1;
        const char *before = count++ == 0 ? " " : last ? " and " : ", ";
        length += snprintf(to + length, room - (size_t)length, "%s%u", before, channel + 1);
    }
    return length;
}

size_t stretch_words(const struct stretch *stretch, char words[STRETCH_LINE]) {
    bool missing = stretch->mark == RIME_MARK_MISSING;
    unsigned long long from = stretch->from, last = stretch->past - 1;
    int length = snprintf(words, STRETCH_LINE, "%s", missing ? "missing" : "damaged");
    if (!missing) length += say_channels(stretch->channels, words + length, STRETCH_LINE - (size_t)length);
    if (from == last) length += snprintf(words + length, STRETCH_LINE - (size_t)length, ": sample %llu", from);
    else length += snprintf(words + length, STRETCH_LINE - (size_t)length, ": samples %llu to %llu", from, last);
    return (size_t)length;
}

size_t stretch_label(const struct stretch *stretch, unsigned rate, char line[STRETCH_LINE]) {
    char words[STRETCH_LINE];
    size_t count = stretch_words(stretch, words);
    int length = snprintf(line, STRETCH_LINE, "%.6f\t%.6f\t%.*s\n", (double)stretch->from / rate,
                          (double)stretch->past / rate, (int)count, words);
    return (size_t)length;
}
