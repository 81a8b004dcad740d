/* What comes from a pipe, kept in a file without a name. */
#include <err.h>
#include <errno.h>
#include <fcntl.h>
#include <stdio.h>
#include <stdlib.h>
#include <unistd.h>

#include "desk.h"

/* Some file systems have no files without a name: there it has one for a moment, in which no signal ends the program. */
static int nameless(const char *folder) {
    int fd = open(folder, O_TMPFILE | O_RDWR | O_EXCL | O_CLOEXEC, 0600);
    if (fd >= 0 || (errno != EOPNOTSUPP && errno != EISDIR && errno != EINVAL)) return fd;
    char *name;
    if (asprintf(&name, "%s/rimesatchel.XXXXXX", folder) < 0) return -1;
    sigset_t before = output_undisturbed();
    fd = mkostemp(name, O_CLOEXEC);
    int why = errno;
    if (fd >= 0) unlink(name);
    output_disturbed(before);
    free(name);
    errno = why;
    return fd;
}

/* All of it. 0, or what errno says; `reading` says of which side. */
static int copy(int from, int to, bool *reading) {
    static char octets[65536];
    uint64_t sum = 0;
    while (true) {
        ssize_t got = read(from, octets, sizeof octets);
        *reading = true;
        if (got < 0 && errno == EINTR) continue;
        if (got <= 0) return got < 0 ? errno : 0;
        *reading = false;
        for (ssize_t done = 0; done < got;) {
            ssize_t written = write(to, octets + done, (size_t)(got - done));
            if (written < 0 && errno != EINTR) return errno;
            if (written > 0) done += written;
        }
        progress_at(sum += (uint64_t)got);
    }
}

bool spool_first(int *fd, const char *name, struct whole *whole) {
    int kept = whole->known ? *fd : spool(*fd, name);
    if (kept < 0) return false;
    if (kept == *fd) return true;
    if (*fd != STDIN_FILENO) close(*fd);
    *fd = kept;
    whole_begin(whole, kept);
    return true;
}

int spool(int from, const char *name) {
    const char *asked = getenv("TMPDIR"), *folder = asked != NULL && asked[0] != '\0' ? asked : P_tmpdir;
    int fd = nameless(folder);
    bool reading = false;
    int failed = 0;
    signal(SIGXFSZ, SIG_IGN);
    if (fd >= 0) {
        progress_within(name, 0);
        failed = copy(from, fd, &reading);
        progress_without();
    }
    if (fd >= 0 && failed == 0 && lseek(fd, 0, SEEK_SET) == 0) return fd;
    if (failed != 0) errno = failed;
    progress_clear();
    if (reading) warn("%s", name);
    else warn("%s: %s can't be kept there (TMPDIR says where)", folder, name);
    if (fd >= 0) close(fd);
    return -1;
}
