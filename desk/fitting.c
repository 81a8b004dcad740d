/* Samples of a log as a sound file has them. */
#include "fitting.h"

#include "slips.h"
#include "sound.h"

struct fitting fitting_of(unsigned sample_bits, unsigned bits, unsigned cut) {
    if (cut >= sample_bits) cut = 0;
    unsigned wide = sample_bits <= 16 ? 16 : sample_bits <= 24 ? 24 : sample_bits <= 32 ? 32 : SOUND_FLOAT;
    return (struct fitting){
        .sample_bits = sample_bits,
        .file_bits = bits != 0 ? bits : cut != 0 ? cut : wide,
        .cut = cut,
    };
}

static void put_all(unsigned sample_bits, const uint64_t *samples, size_t count, int *to) {
    unsigned up = 32 - sample_bits;
    for (size_t at = 0; at < count; at++) to[at] = (int)((uint32_t)samples[at] << up);
}

/* A double has 53 bits: each of 40 has its own, value / 2^39. */
static void put_real(unsigned sample_bits, const uint64_t *samples, size_t count, double *to) {
    unsigned up = 64 - sample_bits;
    for (size_t at = 0; at < count; at++) to[at] = (double)(int64_t)(samples[at] << up) / 0x1p63;
}

static size_t put_top(struct fitting *fitting, const uint64_t *samples, size_t count, int *to) {
    unsigned kept = fitting->cut != 0 ? fitting->cut : fitting->file_bits;
    uint64_t low = ((uint64_t)1 << (fitting->sample_bits - kept)) - 1;
    for (size_t at = 0; at < count; at++) {
        if ((samples[at] & low) != 0) {
            if (fitting->cut == 0) return at;
            fitting->dropped++;
        }
        to[at] = (int)(uint32_t)((samples[at] & ~low) << (64 - fitting->sample_bits) >> 32);
    }
    return count;
}

size_t fitting_put(struct fitting *fitting, const uint64_t *samples, size_t count, union fitted *to, size_t place) {
    if (fitting->cut != 0 || fitting->sample_bits > fitting->file_bits)
        return put_top(fitting, samples, count, to->whole + place);
    if (fitting->file_bits == SOUND_FLOAT) put_real(fitting->sample_bits, samples, count, to->real + place);
    else put_all(fitting->sample_bits, samples, count, to->whole + place);
    return count;
}

enum step fitting_try(struct reading *reading, unsigned bits, bool *fits) {
    uint64_t low = reading->format.sample_bits <= bits ? 0 : ((uint64_t)1 << (reading->format.sample_bits - bits)) - 1, any = 0;
    enum step step = STEP_SOUND;
    while (any == 0 && low != 0 && (step == STEP_SOUND || step == STEP_REFUSED)) {
        step = slips_step(reading);
        for (size_t at = 0; at < reading->given; at++) any |= reading->samples[at] & low;
    }
    *fits = any == 0;
    return step;
}
