/* A sound file that is opened to be read, and what its header says of its length. libsndfile takes what is there. */
#include <fcntl.h>
#include <string.h>
#include <sys/stat.h>
#include <unistd.h>

#include "chunks.h"
#include "sound.h"

/* libsndfile can't read every kind from a pipe, nor from the middle of a file: that is first kept in a file without a name. */
int sound_fd(const char *name) {
    struct stat about;
    bool standard = strcmp(name, "-") == 0;
    int fd = standard ? fcntl(STDIN_FILENO, F_DUPFD_CLOEXEC, STDERR_FILENO + 1) : open(name, O_RDONLY | O_CLOEXEC);
    if (fd < 0) {
        say_failed(shown(name, false));
        return -1;
    }
    if (fstat(fd, &about) == 0 && S_ISREG(about.st_mode) && lseek(fd, 0, SEEK_CUR) == 0) return fd;
    int kept = spool(fd, shown(name, false));
    close(fd);
    return kept;
}

/* Goes to the chunk that has the sound. */
static bool find_sound(struct chunks *chunks, const char *sound) {
    do
        if (chunks_is(chunks, sound)) return true;
    while (chunks_next(chunks));
    return false;
}

/* Lengths that programs leave in a header where they couldn't go back to it. */
static bool is_no_length(uint64_t said, bool aiff) {
    enum { NEAR = 0x1000 };
    if (aiff && said >= 0x7F000000 && said <= 0x7F000000 + NEAR) return true;
    return (said >= 0x7FFFF000 && said <= 0x80000000) || (said >= 0xFFFFF000 && said <= 0xFFFFFFFF) || said > INT64_MAX - NEAR;
}

/* Whether a chunk of letters, and not sound, stands behind one of no length. */
static bool more_chunks(struct chunks chunks) {
    chunks.length = 0;
    if (!chunks_next(&chunks) || chunks.length > chunks.end - chunks.at) return false;
    for (unsigned at = 0; at < 4; at++)
        if (chunks.name[at] < 0x20 || chunks.name[at] > 0x7E) return false;
    return true;
}

static enum header_says judge(const struct chunks *chunks) {
    bool aiff = chunks->aiff;
    uint64_t said = chunks->length, there = chunks->end > chunks->at ? chunks->end - chunks->at : 0;
    if (said == 0xFFFFFFFF && chunks->long_data != UINT64_MAX) said = chunks->long_data;
    if (said == 0 && there > 0 && aiff) return SAYS_NOTHING;
    if (said == 0 && there > 0) return more_chunks(*chunks) ? SAYS_WHOLE : SAYS_SILENT;
    if (said <= there) return SAYS_WHOLE;
    return is_no_length(said, aiff) ? SAYS_NOTHING : SAYS_CUT;
}

enum header_says sound_says(int fd) {
    struct chunks chunks;
    char first[4] = "";
    if (pread(fd, first, sizeof first, 0) == sizeof first && memcmp(first, "fLaC", 4) == 0)
        return SAYS_WHOLE; /* libsndfile reads its length, and reading to it shows a cut */
    if (!chunks_begin(&chunks, fd) || !find_sound(&chunks, chunks.aiff ? "SSND" : "data")) return SAYS_NOTHING;
    return judge(&chunks);
}
