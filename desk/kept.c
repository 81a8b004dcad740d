/* What a sound file has beside its samples. */
#include "kept.h"

#include <err.h>
#include <stdio.h>
#include <stdlib.h>
#include <string.h>
#include <strings.h>

/* The tags that libsndfile knows, and the names by which WAV and FLAC have them. */
static const struct {
    int type;
    const char *name, *info;
    bool aiff; /* AIFF has it too */
} tags[KEPT_TAGS] = {
    {SF_STR_TITLE, "title", "INAM", true},       {SF_STR_COPYRIGHT, "copyright", "ICOP", true},
    {SF_STR_SOFTWARE, "software", "ISFT", true}, {SF_STR_ARTIST, "artist", "IART", true},
    {SF_STR_COMMENT, "comment", "ICMT", true},   {SF_STR_DATE, "date", "ICRD", false},
    {SF_STR_ALBUM, "album", "IPRD", false},      {SF_STR_LICENSE, "license", NULL, false},
    {SF_STR_GENRE, "genre", "IGNR", false},      {SF_STR_TRACKNUMBER, "tracknumber", "ITRK", false},
};

bool kept_has_tag(const struct kept *kept, const char *name, size_t length) {
    for (unsigned at = 0; at < KEPT_TAGS; at++) {
        const char *info = tags[at].info;
        if (kept->tags[at] == NULL) continue;
        if (strlen(tags[at].name) == length && strncasecmp(tags[at].name, name, length) == 0) return true;
        if (info != NULL && strlen(info) == length && memcmp(info, name, length) == 0) return true;
    }
    return false;
}

void kept_take(struct kept *kept, struct sound_in *in) {
    memset(kept, 0, sizeof *kept);
    kept->has_bext = sf_command(in->file, SFC_GET_BROADCAST_INFO, &kept->bext, sizeof kept->bext) == SF_TRUE &&
                     kept->bext.coding_history_size <= KEPT_HISTORY;
    for (unsigned at = 0; at < KEPT_TAGS; at++) {
        const char *text = sf_get_string(in->file, tags[at].type);
        if (text == NULL || text[0] == '\0') continue;
        kept->tags[at] = strndup(text, KEPT_TAG);
        if (kept->tags[at] == NULL) err(STATUS_FILE, "%s", in->name);
    }
    others_find(kept, in->fd, cues_read(&kept->cues, in));
}

void kept_free(struct kept *kept) {
    for (unsigned at = 0; at < KEPT_TAGS; at++) free(kept->tags[at]);
    memset(kept->tags, 0, sizeof kept->tags);
    cues_free(&kept->cues);
}

unsigned kept_tags(const struct kept *kept) {
    unsigned count = 0;
    for (unsigned at = 0; at < KEPT_TAGS; at++) count += kept->tags[at] != NULL;
    return count;
}

const char *kept_words(const struct kept *kept, char words[KEPT_WORDS]) {
    unsigned count = kept_tags(kept);
    int length = snprintf(words, KEPT_WORDS, "%s", kept->has_bext ? "bext" : "");
    if (count > 0)
        length += snprintf(words + length, (size_t)(KEPT_WORDS - length), "%s%u tag%s", length > 0 ? ", " : "", count,
                           plural(count));
    if (kept->cues.count > 0)
        snprintf(words + length, (size_t)(KEPT_WORDS - length), "%s%zu cue point%s", length > 0 ? ", " : "",
                 kept->cues.count, plural(kept->cues.count));
    return words;
}

void kept_to_json(const struct kept *kept, json_t *object) {
    if (kept->has_bext) json_object_set_new(object, "bext", bext_to_json(&kept->bext));
    if (kept_tags(kept) > 0) {
        json_t *texts = json_object();
        for (unsigned at = 0; at < KEPT_TAGS; at++)
            if (kept->tags[at] != NULL) json_put_octets(texts, tags[at].name, kept->tags[at], strlen(kept->tags[at]));
        json_object_set_new(object, "tags", texts);
    }
    if (kept->cues.count == 0) return;
    json_t *points = json_array();
    for (const struct cue *cue = kept->cues.list; cue < kept->cues.list + kept->cues.count; cue++) {
        json_t *point = json_object();
        json_object_set_new(point, "at", json_integer(cue->at));
        if (cue->length > 0) json_object_set_new(point, "length", json_integer(cue->length));
        json_put_octets(point, "name", cue->name, strlen(cue->name));
        json_array_append_new(points, point);
    }
    json_object_set_new(object, "cues", points);
}

/* The octets of a member, which are text up to their end. */
static bool get_text(const json_t *object, const char *key, char text[KEPT_TAG + 1]) {
    ssize_t length = json_get_octets(object, key, text, KEPT_TAG);
    if (length < 0) return false;
    text[length] = '\0';
    return strlen(text) == (size_t)length;
}

static bool get_tags(struct kept *kept, const json_t *object) {
    char text[KEPT_TAG + 1];
    if (!json_is_object(object)) return false;
    for (unsigned at = 0; at < KEPT_TAGS; at++) {
        if (!get_text(object, tags[at].name, text)) return false;
        if (text[0] == '\0') continue;
        kept->tags[at] = strdup(text);
        if (kept->tags[at] == NULL) err(STATUS_FILE, "a sidecar");
    }
    return true;
}

static bool get_sample(const json_t *object, const char *key, uint32_t *sample) {
    const json_t *member = json_object_get(object, key);
    json_int_t value = json_integer_value(member);
    *sample = (uint32_t)value;
    return json_is_integer(member) && value == (json_int_t)*sample;
}

static bool get_cues(struct kept *kept, const json_t *points) {
    char name[KEPT_TAG + 1];
    if (!json_is_array(points) || json_array_size(points) > CUES_MOST) return false;
    for (size_t at = 0; at < json_array_size(points); at++) {
        const json_t *point = json_array_get(points, at);
        uint32_t sample, length = 0;
        if (!get_sample(point, "at", &sample) || !get_text(point, "name", name)) return false;
        if (json_object_get(point, "length") != NULL && !get_sample(point, "length", &length)) return false;
        cues_add(&kept->cues, sample, length, name, KEPT_TAG);
    }
    return true;
}

const char *kept_of_json(struct kept *kept, const json_t *object) {
    const json_t *bext = json_object_get(object, "bext"), *texts = json_object_get(object, "tags"),
                 *points = json_object_get(object, "cues");
    kept->has_bext = bext != NULL;
    if (bext != NULL && !bext_of_json(&kept->bext, bext)) return "bext";
    if (texts != NULL && !get_tags(kept, texts)) return "tags";
    if (points != NULL && !get_cues(kept, points)) return "cues";
    return NULL;
}

static void put_tags(const struct kept *kept, struct tail *tail) {
    size_t all = tail_begin(tail, "LIST");
    tail_put(tail, "INFO", 4);
    for (unsigned at = 0; at < KEPT_TAGS; at++) {
        if (kept->tags[at] == NULL || tags[at].info == NULL) continue;
        size_t one = tail_begin(tail, tags[at].info);
        tail_put(tail, kept->tags[at], strlen(kept->tags[at]) + 1);
        tail_end(tail, one);
    }
    tail_end(tail, all);
}

/* WAV has no field for a licence. */
const char *kept_put(const struct kept *kept, struct tail *tail, char words[KEPT_WORDS]) {
    unsigned left = 0;
    for (unsigned at = 0; at < KEPT_TAGS; at++) left += kept->tags[at] != NULL && tags[at].info == NULL;
    if (kept->has_bext) bext_put(&kept->bext, tail);
    if (kept_tags(kept) > left) put_tags(kept, tail);
    words[0] = '\0';
    if (left > 0) snprintf(words, KEPT_WORDS, "%u tag%s", left, plural(left));
    return words;
}

/* Whether libsndfile's header of AIFF still holds so many octets. Where it doesn't, libsndfile writes a broken file. */
static bool has_room(size_t *room, size_t octets) {
    if (octets > *room) return false;
    *room -= octets;
    return true;
}

/* Octets of the points in a chunk MARK; more than 2,500 of them libsndfile doesn't read back. */
static size_t octets_of(const struct cues *cues) {
    enum { POINT = 8, MOST = 2500 };
    size_t sum = cues->count > MOST ? SIZE_MAX / 2 : 0;
    for (size_t at = 0; at < cues->count; at++) sum += POINT + strlen(cues->list[at].name);
    return sum;
}

/* libsndfile takes what it then doesn't write: tags into W64 and some into AIFF, cue points into FLAC and W64. */
const char *kept_set(const struct kept *kept, const struct sound_out *out, char words[KEPT_WORDS]) {
    int container = out->about.format & SF_FORMAT_TYPEMASK;
    bool aiff = container == SF_FORMAT_AIFF, flac = container == SF_FORMAT_FLAC;
    size_t room = 60000;
    struct kept *left = calloc(1, sizeof *left); /* what isn't written */
    if (left == NULL) err(STATUS_FILE, "a sound file");
    left->has_bext = kept->has_bext;
    for (unsigned at = 0; at < KEPT_TAGS; at++) {
        if (kept->tags[at] == NULL) continue;
        bool held = flac || (aiff && tags[at].aiff && has_room(&room, strlen(kept->tags[at])));
        if (!held || sf_set_string(out->file, tags[at].type, kept->tags[at]) != 0)
            left->tags[at] = kept->tags[at];
    }
    bool pointed = aiff && has_room(&room, octets_of(&kept->cues)) && cues_set(&kept->cues, out->file);
    if (!pointed) left->cues.count = kept->cues.count;
    kept_words(left, words);
    free(left);
    return words;
}
