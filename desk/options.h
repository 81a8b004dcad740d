/* Words of the command line. */
#ifndef OPTIONS_H
#define OPTIONS_H

#include <argp.h>
#include <errno.h>
#include <stdlib.h>
#include <string.h>

#include "desk.h"

enum { OPTION_NO_SLIPS = 256, OPTION_SLIPS, OPTION_BLOCKS }; /* options without a letter */

/* Names of files, at least one. */
struct names {
    char **words;
    int count;
};

static inline error_t option_names(struct argp_state *state, int key, struct names *names) {
    if (key == ARGP_KEY_NO_ARGS) argp_usage(state);
    if (key != ARGP_KEY_ARGS) return ARGP_ERR_UNKNOWN;
    *names = (struct names){state->argv + state->next, state->argc - state->next};
    return 0;
}

/* The name of a file to read, then that of one to write. */
static inline error_t option_pair(struct argp_state *state, int key, char *word, const char **in, const char **out) {
    if (key == ARGP_KEY_ARG && state->arg_num < 2) *(state->arg_num == 0 ? in : out) = word;
    else if (key == ARGP_KEY_ARG || (key == ARGP_KEY_END && state->arg_num < 2)) argp_usage(state);
    else return key == ARGP_KEY_END ? 0 : ARGP_ERR_UNKNOWN;
    return 0;
}

/* A number up to a limit; any other word ends the program with a line of usage. */
static inline uint64_t option_up_to(const struct argp_state *state, const char *name, const char *word, int base,
                                    uint64_t most) {
    char *end;
    errno = 0;
    unsigned long long number = strtoull(word, &end, base);
    if (errno != 0 || end == word || *end != '\0' || word[0] == '-' || number > most)
        argp_error(state, "--%s: %s isn't a number%s", name, word, base == 16 ? " in hex" : "");
    return number;
}

static inline unsigned option_number(const struct argp_state *state, const char *name, const char *word, int base) {
    return (unsigned)option_up_to(state, name, word, base, 0xFFFFFFFF);
}

/* Bits of a sample that a sound file can have. */
static inline unsigned option_bits(const struct argp_state *state, const char *name, const char *word) {
    unsigned bits = option_number(state, name, word, 10);
    if (bits != 16 && bits != 24 && bits != 32) argp_error(state, "--%s: 16, 24 or 32", name);
    return bits;
}

/* A sampling frequency, as libsndfile's files can have it. */
static inline unsigned option_rate(const struct argp_state *state, const char *word) {
    unsigned rate = option_number(state, "rate", word, 10);
    if (rate == 0 || rate > 655350) argp_error(state, "--rate: 1 to 655350 Hz");
    return rate;
}

/* Up to four letters that channel status can carry. */
static inline const char *option_letters(const struct argp_state *state, const char *name, const char *word) {
    if (strlen(word) > 4) argp_error(state, "--%s: %s is longer than four letters", name, word);
    for (const char *letter = word; *letter != '\0'; letter++)
        if (*letter < 0x20 || *letter > 0x7E) argp_error(state, "--%s: only plain letters can be sent", name);
    return word;
}

#endif
