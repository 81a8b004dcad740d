/* Sound files, by libsndfile. */
#include "sound.h"

#include <err.h>
#include <errno.h>
#include <stdio.h>
#include <string.h>
#include <strings.h>
#include <sysexits.h>
#include <unistd.h>

#include "chunks.h"
#include "place.h"
#include "sum.h"

/* The bits of a sample, 0 where a file has no whole numbers. */
static unsigned bits_of(int format) {
    switch (format & SF_FORMAT_SUBMASK) {
    case SF_FORMAT_PCM_S8:
    case SF_FORMAT_PCM_U8: return 8;
    case SF_FORMAT_PCM_16:
    case SF_FORMAT_ALAC_16: return 16;
    case SF_FORMAT_ALAC_20: return 20;
    case SF_FORMAT_PCM_24:
    case SF_FORMAT_ALAC_24: return 24;
    case SF_FORMAT_PCM_32:
    case SF_FORMAT_ALAC_32: return 32;
    default: return 0;
    }
}

int sound_open(struct sound_in *in, const char *name) {
    *in = (struct sound_in){.name = shown(name, false)};
    int fd = in->fd = sound_fd(name);
    if (fd < 0) return STATUS_FILE;
    enum header_says says = sound_says(fd);
    name = in->name;
    in->file = sf_open_fd(fd, SFM_READ, &in->about, SF_TRUE);
    if (in->file == NULL) return say_unfit(name, "isn't a sound file that can be read (WAV, RF64, W64, FLAC, AIFF)");
    in->bits = bits_of(in->about.format);
    if (says == SAYS_NOTHING || in->about.frames == SF_COUNT_MAX)
        warnx("%s: whether it was cut off can't be seen from its header", name);
    if (in->bits != 0 && says <= SAYS_NOTHING) return STATUS_WELL;
    sf_close(in->file);
    if (says == SAYS_CUT) return say_unfit(name, "is cut off: its header tells of more sound than it has");
    if (says == SAYS_SILENT) return say_unfit(name, "was never finished: its header tells of no sound, and more is there");
    return say_unfit(name, "has samples that aren't whole numbers: sox -b 24 makes a file of it that has");
}

int sound_whole(struct sound_in *in, uint64_t frames) {
    if (sf_error(in->file) != SF_ERR_NO_ERROR) return say_unfit(in->name, sf_strerror(in->file));
    if (frames == (uint64_t)in->about.frames || in->about.frames == SF_COUNT_MAX) return STATUS_WELL;
    warnx("%s: ends after %llu of its %lld samples a channel", in->name, (unsigned long long)frames,
          (long long)in->about.frames);
    return STATUS_FILE;
}

/*
 * The most that a kind of file can hold. AIFF has its lengths in 32 bits, with no word where they are passed, and its
 * header gets the rest of them; FLAC counts samples in 36 bits. RF64 and W64 have lengths of 64 bits.
 */
#ifndef SOUND_AIFF_OCTETS
#define SOUND_AIFF_OCTETS 0xFFFF0000
#endif
#ifndef SOUND_FLAC_FRAMES
#define SOUND_FLAC_FRAMES 0xFFFFFFFFF
#endif

/* The kinds of file, by the ending of a name. As WAV a file over 4 GB is RF64, and any other plain WAV. */
static const struct kind {
    const char *ending, *name;
    int container;
    uint64_t octets, frames; /* the most of sound, 0 where there is no limit */
} kinds[] = {
    {"wav", "WAV", SF_FORMAT_RF64, 0, 0},
    {"rf64", "RF64", SF_FORMAT_RF64, 0, 0},
    {"w64", "W64", SF_FORMAT_W64, 0, 0},
    {"flac", "FLAC", SF_FORMAT_FLAC, 0, SOUND_FLAC_FRAMES},
    {"aif", "AIFF", SF_FORMAT_AIFF, SOUND_AIFF_OCTETS, 0},
    {"aiff", "AIFF", SF_FORMAT_AIFF, SOUND_AIFF_OCTETS, 0},
};

static const struct kind *kind_of(const char *name) {
    const char *ending = strrchr(name, '.');
    for (size_t at = 0; ending != NULL && at < sizeof kinds / sizeof *kinds; at++)
        if (strcasecmp(ending + 1, kinds[at].ending) == 0) return &kinds[at];
    return NULL;
}

static int subtype_of(unsigned bits) {
    switch (bits) {
    case 16: return SF_FORMAT_PCM_16;
    case 24: return SF_FORMAT_PCM_24;
    case 32: return SF_FORMAT_PCM_32;
    default: return SF_FORMAT_DOUBLE;
    }
}

/* libsndfile writes through these, so that the first error stays known. */
static sf_count_t length_of(void *user) {
    struct output *output = user;
    off_t here = lseek(output->fd, 0, SEEK_CUR), end = lseek(output->fd, 0, SEEK_END);
    lseek(output->fd, here, SEEK_SET);
    return end;
}

static sf_count_t seek_to(sf_count_t offset, int whence, void *user) {
    return lseek(((struct output *)user)->fd, offset, whence);
}

static sf_count_t read_some(void *to, sf_count_t count, void *user) {
    return read(((struct output *)user)->fd, to, (size_t)count);
}

static sf_count_t write_all(const void *from, sf_count_t count, void *user) {
    return output_write(user, from, (size_t)count) ? count : 0;
}

static sf_count_t tell(void *user) {
    return lseek(((struct output *)user)->fd, 0, SEEK_CUR);
}

/* A kind of file that has no samples as wide as these. */
static int say_narrow(const char *name, const struct kind *kind, unsigned channels, unsigned bits) {
    if (bits == SOUND_FLOAT) {
        warnx("%s: %s has no floating point, which samples of 40 bits need: .wav has, and --cut 24 drops the low 16",
              name, kind->name);
        return EX_USAGE;
    }
    SF_INFO narrower = {.samplerate = 1, .channels = (int)channels, .format = kind->container | subtype_of(24)};
    warnx("%s: such a file can't hold %u channel%s of %u bits%s", name, channels, plural(channels), bits,
          sf_format_check(&narrower) ? " (--cut 24 drops the low ones)" : "");
    return STATUS_FILE;
}

int sound_create(struct sound_out *out, const char *name, unsigned channels, unsigned bits, bool force) {
    *out = (struct sound_out){.file = NULL, .most = UINT64_MAX};
    if (place_is_stream(name)) return stream_create(out, name, channels, bits, force);
    const struct kind *kind = kind_of(name);
    if (kind == NULL) return say_unfit(name, "the name doesn't end in .wav, .rf64, .w64, .flac, .aif or .aiff");
    out->kind = kind->name;
    out->about = (SF_INFO){
        .samplerate = 1, .channels = (int)channels, .format = kind->container | subtype_of(bits)};
    if (!sf_format_check(&out->about)) return say_narrow(name, kind, channels, bits);
    if (kind->frames != 0) out->most = kind->frames;
    if (kind->octets != 0) out->most = kind->octets / (channels * bits / 8);
    return output_open(&out->output, name, force);
}

int sound_begin(struct sound_out *out, unsigned rate) {
    if (out->stream) return stream_begin(out, rate);
    static SF_VIRTUAL_IO through = {length_of, seek_to, read_some, write_all, tell};
    const char *name = out->output.name;
    out->about.samplerate = (int)rate;
    out->file = sf_open_virtual(&through, SFM_WRITE, &out->about, &out->output);
    if (out->file == NULL) {
        errno = out->output.error;
        return errno != 0 ? say_failed(name) : say_unfit(name, sf_strerror(NULL));
    }
    if (strcasecmp(strrchr(name, '.'), ".wav") == 0) sf_command(out->file, SFC_RF64_AUTO_DOWNGRADE, NULL, SF_TRUE);
    sf_command(out->file, SFC_SET_ADD_PEAK_CHUNK, NULL, SF_FALSE); /* it would have the time of day in it */
    return STATUS_WELL;
}

static bool is_real(const struct sound_out *out) {
    return (out->about.format & SF_FORMAT_SUBMASK) == SF_FORMAT_DOUBLE;
}

bool sound_write(struct sound_out *out, const void *samples, size_t frames) {
    if (out->stream) return stream_write(out, samples, frames);
    if (frames > out->most - out->frames) out->full = true;
    if (out->full) return false;
    sf_count_t written = is_real(out) ? sf_writef_double(out->file, samples, (sf_count_t)frames)
                                      : sf_writef_int(out->file, samples, (sf_count_t)frames);
    if (written != (sf_count_t)frames && out->output.error == 0) out->output.error = EIO;
    out->frames += frames;
    return out->output.error == 0;
}

/*
 * A file of floating point has its peaks in a chunk, with the time of day, so that a log would make another file each
 * time. In RF64 libsndfile can't be asked to leave it out: the time goes.
 */
static void forget_time(struct output *output) {
    static const uint8_t none[4];
    uint8_t head[512];
    ssize_t got = pread(output->fd, head, sizeof head, 0);
    for (ssize_t at = 12; at + 16 <= got; at += 8 + head[at + 4] + 256 * head[at + 5])
        if (memcmp(head + at, "PEAK", 4) == 0 && pwrite(output->fd, none, sizeof none, at + 12) < 0) output->error = errno;
}

bool sound_holds_chunks(const char *name) {
    const struct kind *kind = kind_of(name);
    return kind != NULL && kind->container == SF_FORMAT_RF64 && !place_is_stream(name);
}

bool sound_has_chunks(const struct sound_out *out) {
    return !out->stream && (out->about.format & SF_FORMAT_TYPEMASK) == SF_FORMAT_RF64;
}

/* What comes when libsndfile has written all that is its own. */
static void finish(struct sound_out *out) {
    struct output *output = &out->output;
    if (is_real(out)) forget_time(output);
    if (out->tail != NULL && out->tail->count > 0) out->no_room = !tail_append(out->tail, output);
    if (out->sum != NULL && output->error == 0 && !sum_file(output->fd, out->sum)) output->error = errno;
}

int sound_done(struct sound_out *out) {
    int failed = SF_ERR_NO_ERROR, closed = SF_ERR_NO_ERROR;
    if (out->file != NULL) {
        /* Of a file without samples libsndfile knows the length only once its header is there. */
        if (out->frames == 0) sf_command(out->file, SFC_UPDATE_HEADER_NOW, NULL, 0);
        failed = sf_error(out->file);
        closed = sf_close(out->file);
    }
    out->file = NULL;
    finish(out);
    bool written = output_done(&out->output);
    if (out->full) {
        warnx("%s: %s holds at most %llu samples a channel here, and more came: .wav or .w64 holds them",
              out->output.name, out->kind, (unsigned long long)out->most);
        return STATUS_FILE;
    }
    if (written && failed == SF_ERR_NO_ERROR && closed == SF_ERR_NO_ERROR) return STATUS_WELL;
    if (!written) return output_keep(&out->output);
    return say_unfit(out->output.name, sf_error_number(failed != SF_ERR_NO_ERROR ? failed : closed));
}

void sound_drop(struct sound_out *out) {
    if (out->file != NULL) sf_close(out->file);
    out->file = NULL;
    output_drop(&out->output);
}
