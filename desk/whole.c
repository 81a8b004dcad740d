/* Whether a file was read whole. */
#include <err.h>
#include <sys/stat.h>
#include <unistd.h>

#include "desk.h"

void whole_begin(struct whole *whole, int fd) {
    struct stat about;
    off_t start = lseek(fd, 0, SEEK_CUR);
    *whole = (struct whole){.fd = fd, .known = start >= 0 && fstat(fd, &about) == 0 && S_ISREG(about.st_mode)};
    if (!whole->known) return;
    whole->start = (uint64_t)start;
    whole->length = about.st_size > start ? (uint64_t)(about.st_size - start) : 0;
}

bool whole_end(struct whole *whole, const char *name, uint64_t octets, bool to_the_end) {
    if (!whole->known) return true;
    struct stat about;
    if (fstat(whole->fd, &about) != 0) {
        say_failed(name);
        return false;
    }
    uint64_t end = (uint64_t)about.st_size, now = end > whole->start ? end - whole->start : 0;
    if (octets > now || (to_the_end && octets < whole->length)) {
        say_unfit(name, "became shorter while it was read");
        return false;
    }
    if (!to_the_end) return true;
    if (octets > whole->length || now > octets)
        warnx("%s: grew while it was read, and is taken up to the end that was met, %llu octets", name,
              (unsigned long long)octets);
    whole->known = false; /* said once */
    return true;
}
