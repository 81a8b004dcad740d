/* A log that is recorded, on the disk. */
#include "lasting.h"

#include <err.h>
#include <errno.h>
#include <fcntl.h>
#include <stdio.h>
#include <stdlib.h>
#include <string.h>
#include <sys/resource.h>
#include <unistd.h>

#include "place.h"
#include "told.h"

char *lasting_name(const char *name, unsigned piece) {
    const char *slash = strrchr(name, '/'), *dot = strrchr(slash == NULL ? name : slash, '.');
    int stem = dot == NULL || dot == name || dot[-1] == '/' ? (int)strlen(name) : (int)(dot - name);
    char *path;
    int length =
        piece == 1 ? asprintf(&path, "%s", name) : asprintf(&path, "%.*s.%u%s", stem, name, piece, name + stem);
    if (length < 0) errx(STATUS_FILE, "%s: no memory", name);
    return path;
}

static void leave(struct lasting *lasting) {
    close(lasting->fd);
    free(lasting->path);
    lasting->fd = -1;
    lasting->path = NULL;
}

/* The part of a record at the end is cut off; what stands before it stays. A log without a record is taken back. */
static bool failed(struct lasting *lasting, const char *what) {
    uint64_t records = lasting->octets < RIME_HEADER_OCTETS ? 0 : (lasting->octets - RIME_HEADER_OCTETS) / RIME_RECORD_OCTETS;
    uint64_t whole = RIME_HEADER_OCTETS + records * RIME_RECORD_OCTETS;
    told_clear();
    warn("%s: %s", lasting->path, what);
    if (records == 0) {
        unlink(lasting->path);
        leave(lasting);
        return false;
    }
    if (ftruncate(lasting->fd, (off_t)whole) != 0)
        warn("%s: a part of a record at its end couldn't be cut off", lasting->path);
    if (fdatasync(lasting->fd) != 0) warn("%s: whether it is on the disk isn't known", lasting->path);
    warnx("%s: %llu whole record%s kept", lasting->path, (unsigned long long)records, records == 1 ? " is" : "s are");
    leave(lasting);
    return false;
}

static bool write_held(struct lasting *lasting) {
    uint64_t done = 0;
    while (done < lasting->used) {
        ssize_t written = write(lasting->fd, lasting->held + done, lasting->used - done);
        if (written < 0 && errno == EINTR) continue;
        if (written < 0) return failed(lasting, "can't be written");
        done += (uint64_t)written;
        lasting->octets += (uint64_t)written;
    }
    lasting->used = 0;
    return true;
}

/* The name itself is on the disk too, where the folder can be read. */
static bool sync_folder(struct lasting *lasting) {
    char *folder;
    if (!place_folder(lasting->path, &folder)) errx(STATUS_FILE, "%s: no memory", lasting->path);
    int fd = open(folder, O_RDONLY | O_DIRECTORY | O_CLOEXEC);
    free(folder);
    if (fd < 0) warn("%s: its name can't be brought to the disk", lasting->path);
    bool good = fd < 0 || fsync(fd) == 0 || errno == EINVAL;
    if (!good) failed(lasting, "its name can't be brought to the disk");
    if (fd >= 0) close(fd);
    lasting->named = true;
    return good;
}

bool lasting_sync(struct lasting *lasting) {
    if (!write_held(lasting)) return false;
    if (fdatasync(lasting->fd) != 0) return failed(lasting, "can't be brought to the disk");
    return lasting->named || sync_folder(lasting);
}

int lasting_open(struct lasting *lasting, const char *name, unsigned piece, struct settings settings) {
    lasting->octets = lasting->records = lasting->used = 0;
    lasting->reserved = lasting->named = false;
    lasting->path = lasting_name(name, piece);
    lasting->fd = open(lasting->path, O_WRONLY | O_CREAT | O_EXCL | O_APPEND | O_CLOEXEC, 0666);
    if (lasting->fd < 0) {
        int status = errno == EEXIST ? say_unfit(lasting->path, "is there already, and is kept") : say_failed(lasting->path);
        free(lasting->path);
        return status;
    }
    rime_log_put_header(lasting->held, sizeof lasting->held, settings.format, settings.channels, settings.order, &lasting->used);
    return write_held(lasting) ? STATUS_WELL : STATUS_FILE;
}

/* A limit on the size of files isn't looked at where a file keeps its own. */
static bool is_let(uint64_t octets) {
    uint64_t longest = RIME_HEADER_OCTETS + (uint64_t)LASTING_RECORDS * RIME_RECORD_OCTETS;
    struct rlimit limit;
    if (getrlimit(RLIMIT_FSIZE, &limit) != 0 || limit.rlim_cur == RLIM_INFINITY) return true;
    errno = EFBIG;
    return (octets < longest ? octets : longest) <= limit.rlim_cur;
}

/* Not every disk can do it. */
bool lasting_reserve(struct lasting *lasting, uint64_t octets, bool must) {
    lasting->reserved = is_let(octets) && fallocate(lasting->fd, FALLOC_FL_KEEP_SIZE, 0, (off_t)octets) == 0;
    if (lasting->reserved) return true;
    if (!must || errno == EOPNOTSUPP || errno == ENOSYS) {
        warn("%s: room can't be taken beforehand", lasting->path);
        return true;
    }
    return failed(lasting, "there is no room for all that can come");
}

bool lasting_put(struct lasting *lasting, const uint8_t cell[RIME_CELL_OCTETS], bool indication) {
    if (lasting->used + RIME_RECORD_OCTETS > sizeof lasting->held && !write_held(lasting)) return false;
    lasting->records++;
    return rime_log_put_record(lasting->held, sizeof lasting->held, lasting->used, cell, RIME_CELL_OCTETS, indication,
                               &lasting->used) == RIME_DONE;
}

bool lasting_close(struct lasting *lasting) {
    if (!lasting_sync(lasting)) return false;
    if (lasting->reserved && ftruncate(lasting->fd, (off_t)lasting->octets) != 0)
        return failed(lasting, "room that wasn't used can't be given back");
    leave(lasting);
    return true;
}
