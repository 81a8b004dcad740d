/* Cue points of a sound file: a sample, a length of its stretch where it has one, and a name. */
#ifndef CUES_H
#define CUES_H

#include "chunks.h"
#include "sound.h"
#include "stretches.h"

enum { CUES_SHOWN = 4096 };     /* stretches that `receive --cues` shows at most */
enum { CUES_MOST = 65536 };     /* points that are read at most, from a sound file or a sidecar */
enum { CUES_OCTETS = 1 << 21 }; /* octets of their names that are read at most */

struct cue {
    uint32_t at, length; /* samples; a length of 0 is none */
    char *name;          /* octets of any kind up to a zero */
};
struct cues {
    struct cue *list;
    size_t count, room;
    size_t shown;      /* of them stretches that are missing or damaged */
    uint64_t left_out; /* such stretches for which there was no room */
};
void cues_add(struct cues *cues, uint32_t at, uint32_t length, const char *name, size_t name_length);
void cues_show(struct cues *cues, const struct stretch *stretch); /* one that is missing or damaged */
void cues_free(struct cues *cues);
void cues_put(const struct cues *cues,
              struct tail *tail); /* as chunks of WAV: `cue `, and LIST adtl with the names and lengths */
bool cues_set(const struct cues *cues, SNDFILE *file); /* in a kind of file that libsndfile writes them into */
/* Those of WAV and RF64 by their chunks: libsndfile has none of RF64, and none where there are more than 2,500. Of any
   other kind of file libsndfile's. False where there are some that can't be read. */
bool cues_read(struct cues *cues, struct sound_in *in);

#endif
