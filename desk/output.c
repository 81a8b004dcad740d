/* A file that gets its name when it is whole, or something that is written into, as a device or a pipe. */
#include <err.h>
#include <errno.h>
#include <fcntl.h>
#include <signal.h>
#include <stdio.h>
#include <stdlib.h>
#include <string.h>
#include <sys/stat.h>
#include <unistd.h>

#include "desk.h"
#include "place.h"

/* The outputs that are neither kept nor dropped: a signal may come at any time. */
enum { MOST = 4 };
static char *volatile unfinished[MOST];
static const int ending[] = {SIGINT, SIGTERM, SIGHUP, SIGPIPE, SIGQUIT, SIGXCPU, SIGUSR1, SIGUSR2};

static void drop_all(void) {
    for (int at = 0; at < MOST; at++)
        if (unfinished[at] != NULL) unlink(unfinished[at]);
}

static void stopped(int number) {
    drop_all();
    signal(number, SIG_DFL);
    raise(number);
}

static void watch(char *temporary) {
    static bool begun = false;
    if (!begun) {
        atexit(drop_all);
        for (size_t at = 0; at < sizeof ending / sizeof *ending; at++)
            if (signal(ending[at], SIG_IGN) != SIG_IGN) signal(ending[at], stopped);
        signal(SIGXFSZ, SIG_IGN); /* a file over the limit is told by write */
        begun = true;
    }
    for (int at = 0; at < MOST; at++)
        if (unfinished[at] == NULL) {
            unfinished[at] = temporary;
            return;
        }
}

static void unwatch(const char *temporary) {
    for (int at = 0; at < MOST; at++)
        if (unfinished[at] == temporary) unfinished[at] = NULL;
}

sigset_t output_undisturbed(void) {
    sigset_t these, before;
    sigemptyset(&these);
    for (size_t at = 0; at < sizeof ending / sizeof *ending; at++) sigaddset(&these, ending[at]);
    sigprocmask(SIG_BLOCK, &these, &before);
    return before;
}

void output_disturbed(sigset_t before) {
    sigprocmask(SIG_SETMASK, &before, NULL);
}

/* What isn't a regular file keeps what is written into it. */
static int open_into(struct output *output, const struct place *place) {
    bool own = place->descriptor >= 0;
    output->fd = own ? fcntl(place->descriptor, F_DUPFD_CLOEXEC, STDERR_FILENO + 1) : open(place->path, O_WRONLY | O_CLOEXEC);
    if (output->fd < 0) return say_failed(output->name);
    output->open = output->into = true;
    signal(SIGXFSZ, SIG_IGN);
    return STATUS_WELL;
}

/* A file that is written over keeps its mode, and its owner where we may give it to them. */
static void set_mode(const struct output *output, const struct place *place) {
    mode_t mask = umask(0);
    umask(mask);
    mode_t mode = place->there ? place->about.st_mode & 0777 : 0666 & ~mask;
    if (place->there && fchown(output->fd, place->about.st_uid, place->about.st_gid) != 0) errno = 0; /* it is ours then */
    fchmod(output->fd, mode);
}

/* A temporary name beside that of the file: as much of it as leaves room for the rest. */
static char *beside(const char *path) {
    enum { LONGEST = 240 };
    char *folder, *name = NULL;
    if (!place_folder(path, &folder)) return NULL;
    const char *slash = strrchr(path, '/'), *last = slash == NULL ? path : slash + 1;
    if (asprintf(&name, "%s/%.*s.XXXXXX", folder, LONGEST, last) < 0) name = NULL;
    free(folder);
    return name;
}

static int open_beside(struct output *output, struct place *place) {
    output->temporary = beside(place->path);
    if (output->temporary == NULL) err(STATUS_FILE, "%s", output->name);
    sigset_t before = output_undisturbed();
    output->fd = mkostemp(output->temporary, O_CLOEXEC);
    if (output->fd >= 0) watch(output->temporary);
    output_disturbed(before);
    if (output->fd < 0) {
        int status = say_failed(output->name);
        free(output->temporary);
        output->temporary = NULL;
        return status;
    }
    set_mode(output, place);
    output->target = place->path;
    place->path = NULL;
    output->open = true;
    return STATUS_WELL;
}

int output_open(struct output *output, const char *name, bool force) {
    *output = (struct output){.name = shown(name, true), .fd = -1, .force = force};
    struct place place = {.descriptor = STDOUT_FILENO};
    if (strcmp(name, "-") == 0) return open_into(output, &place);
    if (!place_find(&place, name)) return say_failed(name);
    int status;
    if (place.there && !force) status = say_unfit(name, "is there already, and is kept (--force writes over it)");
    else if (place.descriptor >= 0 || (place.there && !S_ISREG(place.about.st_mode))) {
        status = open_into(output, &place);
        if (status == STATUS_WELL) warnx("%s: isn't a regular file: what is written into it can't be taken back", name);
    } else status = open_beside(output, &place);
    free(place.path);
    return status;
}

bool output_write(struct output *output, const void *octets, size_t count) {
    const char *from = octets;
    while (output->error == 0 && count > 0) {
        ssize_t written = write(output->fd, from, count);
        if (written < 0) {
            if (errno != EINTR) output->error = errno;
            continue;
        }
        output->begun = true;
        from += written;
        count -= (size_t)written;
    }
    return output->error == 0;
}

void output_drop(struct output *output) {
    if (!output->open) return;
    if (output->fd >= 0) close(output->fd);
    if (output->into && output->begun) warnx("%s: isn't whole, and what was written there can't be taken back", output->name);
    if (output->temporary != NULL) {
        unlink(output->temporary);
        unwatch(output->temporary);
    }
    free(output->temporary);
    free(output->target);
    *output = (struct output){.name = output->name, .fd = -1, .error = output->error};
}

/* A disk may say only now that it is full or has failed. A pipe or a device has nothing to wait for. */
bool output_done(struct output *output) {
    if (!output->open || output->fd < 0) return output->error == 0;
    if (output->error == 0 && fsync(output->fd) != 0 && errno != EINVAL && errno != EROFS && errno != ENOTSUP)
        output->error = errno;
    if (close(output->fd) != 0 && output->error == 0) output->error = errno;
    output->fd = -1;
    return output->error == 0;
}

/*
 * Gives the file its name. Without --force no file may be there, in the same moment. With it the file that was there changes
 * places with the new one, where the system can do that, so that it can still be put back. After the last of all that isn't
 * needed.
 */
static bool give_name(struct output *output, bool last) {
    const char *from = output->temporary, *to = output->target;
    struct stat about;
    if (!output->force) {
        if (renameat2(AT_FDCWD, from, AT_FDCWD, to, RENAME_NOREPLACE) == 0) return true;
        if (errno != EINVAL && errno != ENOSYS) return false;
        if (access(to, F_OK) == 0) errno = EEXIST;
        return access(to, F_OK) != 0 && rename(from, to) == 0;
    }
    bool there = lstat(to, &about) == 0;
    if (there && !S_ISREG(about.st_mode)) {
        errno = EEXIST;
        return false;
    }
    output->swapped = there && !last && renameat2(AT_FDCWD, from, AT_FDCWD, to, RENAME_EXCHANGE) == 0;
    output->replaced = there && !output->swapped;
    return output->swapped || rename(from, to) == 0;
}

/* The name was given, and another output of the call can't have its own: as it was before. */
static void take_name(struct output *output) {
    const char *from = output->target, *to = output->temporary;
    if (output->replaced) warnx("%s: is the new one already: the file that was there can't be put back", output->name);
    else if (renameat2(AT_FDCWD, from, AT_FDCWD, to, output->swapped ? RENAME_EXCHANGE : 0) != 0) say_failed(output->name);
}

/* The entry of the folder reaches the disk too. A folder that can't be opened to be read is left to the system. */
static int finish(struct output *output) {
    char *folder;
    int status = STATUS_WELL;
    unwatch(output->temporary);
    if (output->swapped) unlink(output->temporary);
    if (!place_folder(output->target, &folder)) err(STATUS_FILE, "%s", output->name);
    int fd = open(folder, O_RDONLY | O_DIRECTORY | O_CLOEXEC);
    if (fd >= 0 && fsync(fd) != 0 && errno != EINVAL && errno != ENOTSUP) status = say_failed(output->name);
    if (fd >= 0) close(fd);
    free(folder);
    free(output->temporary);
    free(output->target);
    *output = (struct output){.name = output->name, .fd = -1};
    return status;
}

static bool is_last(struct output *const *outputs, size_t at, size_t count) {
    while (++at < count)
        if (outputs[at]->target != NULL) return false;
    return true;
}

int outputs_keep(struct output *const *outputs, size_t count) {
    int status = STATUS_WELL;
    for (size_t at = 0; at < count && status == STATUS_WELL; at++) {
        if (output_done(outputs[at])) continue;
        errno = outputs[at]->error;
        status = say_failed(outputs[at]->name);
    }
    sigset_t before = output_undisturbed(); /* all of them get their names, or none */
    size_t named = 0;
    for (; named < count && status == STATUS_WELL; named++)
        if (outputs[named]->target != NULL && !give_name(outputs[named], is_last(outputs, named, count))) {
            status = say_failed(outputs[named]->name);
            break;
        }
    while (status != STATUS_WELL && named-- > 0)
        if (outputs[named]->target != NULL) take_name(outputs[named]);
    output_disturbed(before);
    bool kept = status == STATUS_WELL;
    for (size_t at = 0; at < count; at++) {
        if (!kept) output_drop(outputs[at]);
        else if (outputs[at]->target == NULL) outputs[at]->open = false;
        else if (finish(outputs[at]) != STATUS_WELL) status = STATUS_FILE;
    }
    return status;
}

int output_keep(struct output *output) {
    return outputs_keep(&output, 1);
}
