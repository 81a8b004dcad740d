/* Sound files, by libsndfile. A sample passes as 32 bits, its own at the top, or as floating point. */
#ifndef SOUND_H
#define SOUND_H

#include <sndfile.h>

#include "desk.h"

struct sound_in {
    const char *name;
    SNDFILE *file;
    int fd; /* libsndfile closes it */
    SF_INFO about;
    unsigned bits; /* of a sample */
};
int sound_open(struct sound_in *in, const char *name); /* a status; says what is wrong */
int sound_whole(struct sound_in *in, uint64_t frames); /* a status: so many frames were read, are they all? */

enum { SOUND_FLOAT = 64 }; /* bits of a file of floating point, which alone holds samples of 40 bits */

struct sound_out {
    struct output output;
    bool stream; /* written by stream.c, and what it needs to know */
    unsigned bits, channels;
    SNDFILE *file;
    SF_INFO about;
    const char *kind; /* of file, in words */
    uint64_t most;    /* frames that such a file can hold */
    uint64_t frames;  /* written so far */
    bool full;        /* more came than it can hold */
    const struct tail *tail; /* chunks to stand behind the sound, NULL where there are none */
    bool no_room;            /* there was no room for them */
    char *sum;               /* room for its SHA-256, NULL where that isn't wanted */
};
/* The name and what is to stand in it, and then, once it is known, the sampling frequency. Statuses; say what is wrong. */
int sound_create(struct sound_out *out, const char *name, unsigned channels, unsigned bits, bool force);
int sound_begin(struct sound_out *out, unsigned rate);
/* Frames of int, or of double in a file of SOUND_FLOAT. False where no more can be written. */
bool sound_write(struct sound_out *out, const void *samples, size_t frames);
bool sound_holds_chunks(const char *name); /* a file of this name would be such a one */
bool sound_has_chunks(const struct sound_out *out); /* it is a file of WAV or RF64, into which chunks can be put */
int sound_done(struct sound_out *out); /* nothing more is written; a status, and says what is wrong */
void sound_drop(struct sound_out *out);

/* header.c: a sound file that is opened to be read, from a pipe too, and what its header says of its length. */
enum header_says {
    SAYS_WHOLE,   /* all of it is there, as far as the header tells */
    SAYS_NOTHING, /* the header doesn't tell, as that of sound from a pipe doesn't */
    SAYS_CUT,     /* less is there than the header says */
    SAYS_SILENT   /* the header says that there is no sound, and something is there: it was never finished */
};
int sound_fd(const char *name); /* -1 where it can't be; that is said */
enum header_says sound_says(int fd);

/*
 * stream.c: sound into what can't be gone back in. The name and what is to stand in it, then the sampling frequency, then
 * frames of int, or of double where a sample has 64 bits.
 */
int stream_create(struct sound_out *out, const char *name, unsigned channels, unsigned bits, bool force);
int stream_begin(struct sound_out *out, unsigned rate);
bool stream_write(struct sound_out *out, const void *samples, size_t frames);

#endif
