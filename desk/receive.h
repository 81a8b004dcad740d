/* rimesatchel receive: what it is asked for, and how far it is. */
#ifndef RECEIVE_H
#define RECEIVE_H

#include "cues.h"
#include "fitting.h"
#include "sidecar.h"

struct receive {
    const char *in_name, *out_name, *labels_name, *marks_name, *sidecar_name;
    unsigned bits, cut; /* 0 where they aren't given */
    uint64_t length;    /* samples a channel */
    bool measured;      /* a length is given, by --length or a sidecar */
    bool strict, force, quiet, json, sum, cued, no_slips;

    struct reading reading;
    struct frequency frequency;
    struct fitting fitting;
    struct sound_out sound;
    struct output labels, marks;
    struct stretches stretches;
    uint64_t damaged; /* samples marked 1, of all channels */
    uint64_t times;   /* sample times handed on to the files */
    uint64_t unfit;   /* the entry that has bits too many, counted from 1; 0 where none has */

    struct sidecar sidecar;
    bool by_sidecar;            /* the length is a sidecar's */
    bool other_bits;            /* a sample has bits below the sidecar's that aren't 0 */
    struct samples_sum samples; /* of what a sidecar is compared with */
    bool differs;               /* these aren't the samples of the sidecar's file */
    char not_put[KEPT_WORDS];   /* what of a sidecar the kind of file can't hold */
    struct cues cues;
    struct tail tail;
    char sha256[SUM_SHA256];
    bool told; /* the document is begun */

    /* what stands after the length in its cell, until it is known whether another cell follows */
    uint64_t rest[RIME_MOST_SLOTS];
    uint8_t rest_marks[RIME_MOST_SLOTS];
    size_t rest_given;

    /* entries that are handed out and not yet written */
    union fitted held;
    uint8_t held_marks[FITTED];
    size_t entries;
};

/* summary.c: what was received, in words and in JSON. */
void say_summary(const struct receive *receive);
void tell_begin(struct receive *receive); /* the document up to its stretches, once */
void tell_stretch(const struct stretch *stretch);
void tell_result(const struct receive *receive, bool broken); /* what comes behind them, of a file that was written */
void tell_end(struct receive *receive, int status);

/* back.c: what a sidecar gives back. */
int sidecar_begin(struct receive *receive); /* reads it, and takes length and frequency from it; a status */
int sidecar_bits(struct receive *receive);  /* the file's bits, where every sample fits in them; a status */
void sidecar_put(struct receive *receive);  /* what stands beside the samples, into the file that is begun */
void sidecar_take(struct receive *receive, const struct handed *handed);
bool sidecar_agrees(struct receive *receive); /* the samples are those of the file; says what isn't so */

#endif
