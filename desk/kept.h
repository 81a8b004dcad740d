/* What a sound file has beside its samples and a log doesn't carry: bext, tags (INFO of WAV, comments of FLAC), cue
 * points. */
#ifndef KEPT_H
#define KEPT_H

#include "cues.h"
#include "json.h"

enum { KEPT_HISTORY = 1 << 16, KEPT_TAGS = 10, KEPT_TAG = 1 << 16, KEPT_WORDS = 512 };
typedef SF_BROADCAST_INFO_VAR(KEPT_HISTORY) kept_bext;

struct kept {
    bool has_bext;
    kept_bext bext;
    char *tags[KEPT_TAGS]; /* NULL where there is none */
    struct cues cues;
    char others[KEPT_WORDS]; /* the names of chunks and tags of which nothing is kept, with commas between them */
};
void kept_take(struct kept *kept, struct sound_in *in);
void kept_free(struct kept *kept);
unsigned kept_tags(const struct kept *kept); /* how many */
const char *kept_words(const struct kept *kept,
                       char words[KEPT_WORDS]); /* "bext, 3 tags, 12 cue points"; empty for nothing */
void kept_to_json(const struct kept *kept, json_t *object);
const char *kept_of_json(struct kept *kept, const json_t *object); /* what is wrong, or NULL */
/* bext and tags as chunks of WAV. As in the next call, the words of what isn't put there. */
const char *kept_put(const struct kept *kept, struct tail *tail, char words[KEPT_WORDS]);
/* Into a file of another kind, before its sound: what libsndfile writes there. */
const char *kept_set(const struct kept *kept, const struct sound_out *out, char words[KEPT_WORDS]);

/* bext.c */
json_t *bext_to_json(const kept_bext *bext);
bool bext_of_json(kept_bext *bext, const json_t *object); /* false where it isn't such an object */
void bext_put(const kept_bext *bext, struct tail *tail);

/* others.c: finds what stands in a file and isn't kept. Cue points are, or some can't be read. */
void others_find(struct kept *kept, int fd, bool has_cues);
bool kept_has_tag(const struct kept *kept, const char *name,
                  size_t length); /* that of INFO, or of FLAC, which has this name */

#endif
