/* Sound into what can't be gone back in: WAV alone, with a header that doesn't say how long it is. */
#include <err.h>
#include <string.h>
#include <sysexits.h>

#include "place.h"
#include "sound.h"

enum { HEADER = 44, FORMAT_CHUNK = 16, WHOLE_NUMBERS = 1, FLOATING_POINT = 3 };

static uint8_t *put(uint8_t *to, uint64_t number, unsigned octets) {
    for (unsigned at = 0; at < octets; at++) *to++ = (uint8_t)(number >> 8 * at);
    return to;
}

static uint8_t *put_name(uint8_t *to, const char *name) {
    memcpy(to, name, 4);
    return to + 4;
}

int stream_create(struct sound_out *out, const char *name, unsigned channels, unsigned bits, bool force) {
    if (!place_ends(name, "wav")) errx(EX_USAGE, "%s: only WAV can be written into a pipe or a device", name);
    out->stream = true;
    out->bits = bits;
    out->channels = channels;
    return output_open(&out->output, name, force);
}

/* Both lengths are the largest that there is, as programs that write WAV into a pipe have it. */
int stream_begin(struct sound_out *out, unsigned rate) {
    uint8_t header[HEADER], *to = header;
    unsigned frame = out->channels * out->bits / 8;
    to = put_name(to, "RIFF");
    to = put(to, 0xFFFFFFFF, 4);
    to = put_name(put_name(to, "WAVE"), "fmt ");
    to = put(to, FORMAT_CHUNK, 4);
    to = put(to, out->bits == 64 ? FLOATING_POINT : WHOLE_NUMBERS, 2);
    to = put(to, out->channels, 2);
    to = put(to, rate, 4);
    to = put(to, (uint64_t)rate * frame, 4);
    to = put(to, frame, 2);
    to = put(to, out->bits, 2);
    to = put_name(to, "data");
    put(to, 0xFFFFFFFF, 4);
    output_write(&out->output, header, sizeof header); /* a fault is noted there */
    return STATUS_WELL;
}

/* The sample at a place: the top bits of an int, or all of a double. */
static uint64_t sample_at(const struct sound_out *out, const void *samples, size_t at) {
    uint64_t sample;
    if (out->bits != 64) return ((const uint32_t *)samples)[at] >> (32 - out->bits);
    memcpy(&sample, (const double *)samples + at, sizeof sample);
    return sample;
}

bool stream_write(struct sound_out *out, const void *samples, size_t frames) {
    enum { ROOM = 16384 };
    uint8_t octets[ROOM], *to = octets;
    size_t count = frames * out->channels;
    for (size_t at = 0; at < count; at++) {
        to = put(to, sample_at(out, samples, at), out->bits / 8);
        if (to + sizeof(uint64_t) <= octets + ROOM && at + 1 < count) continue;
        if (!output_write(&out->output, octets, (size_t)(to - octets))) return false;
        to = octets;
    }
    return true;
}
