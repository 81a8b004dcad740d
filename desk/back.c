/* What a sidecar gives back to a file that is received: its length, frequency and bits, and what stood beside its
 * samples. */
#include <err.h>
#include <stdio.h>
#include <string.h>

#include "receive.h"

int sidecar_begin(struct receive *receive) {
    struct sidecar *sidecar = &receive->sidecar;
    int status = sidecar_read(sidecar, receive->sidecar_name);
    if (status != STATUS_WELL) return status;
    if (!receive->measured) {
        receive->measured = receive->by_sidecar = true;
        receive->length = sidecar->length;
    }
    if (receive->frequency.asked == 0) {
        receive->frequency.asked = sidecar->rate;
        receive->frequency.by_sidecar = true;
    }
    samples_sum_begin(&receive->samples, sidecar->bits);
    return STATUS_WELL;
}

/* Bits that a file is written with and that hold these. */
static unsigned file_bits(unsigned bits) {
    return bits <= 16 ? 16 : bits <= 24 ? 24 : 32;
}

int sidecar_bits(struct receive *receive) {
    struct reading *reading = &receive->reading;
    unsigned bits = file_bits(receive->sidecar.bits);
    if (receive->bits != 0 || receive->cut != 0) return STATUS_WELL;
    bool fits = true;
    if (bits < reading->format.sample_bits) {
        enum step step = fitting_try(reading, bits, &fits);
        if (step == STEP_FAILED) {
            reading_close(reading);
            return STATUS_FILE;
        }
        int status = reading_again(reading);
        if (status != STATUS_WELL) return status;
    }
    receive->other_bits = !fits;
    if (fits) receive->bits = bits;
    else
        warnx("%s: samples have bits that aren't 0 below the %u of %s: the file has those of the format", reading->name,
              receive->sidecar.bits, shown(receive->sidecar_name, false));
    return STATUS_WELL;
}

void sidecar_put(struct receive *receive) {
    const struct kept *kept = &receive->sidecar.kept;
    receive->not_put[0] = '\0';
    if (receive->sound.stream) kept_words(kept, receive->not_put);
    else if (!sound_has_chunks(&receive->sound)) kept_set(kept, &receive->sound, receive->not_put);
    else {
        kept_put(kept, &receive->tail, receive->not_put);
        for (const struct cue *cue = kept->cues.list; cue < kept->cues.list + kept->cues.count; cue++)
            cues_add(&receive->cues, cue->at, cue->length, cue->name, strlen(cue->name));
    }
    if (receive->not_put[0] != '\0')
        warnx("%s: such a file doesn't hold what %s keeps: %s", shown(receive->out_name, true),
              shown(receive->sidecar_name, false), receive->not_put);
}

void sidecar_take(struct receive *receive, const struct handed *handed) {
    unsigned up = 64 - receive->reading.format.sample_bits;
    for (size_t at = 0; at < handed->given; at++) samples_sum_put(&receive->samples, handed->samples[at] << up);
}

bool sidecar_agrees(struct receive *receive) {
    const struct sidecar *sidecar = &receive->sidecar;
    char md5[SUM_MD5];
    samples_sum_end(&receive->samples, md5);
    receive->differs = strcmp(md5, sidecar->md5) != 0 || receive->samples.other ||
                       sidecar->channels != receive->reading.channels || sidecar->length != receive->times;
    if (receive->differs)
        warnx("%s: these aren't the samples of the file that %s tells of: the MD5 of those is %s, of these %s",
              receive->reading.name, shown(receive->sidecar_name, false), sidecar->md5,
              receive->samples.other ? "another one, of more bits" : md5);
    return !receive->differs;
}
