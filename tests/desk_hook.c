/*
 * A library that is loaded before the desk tool (LD_PRELOAD), so that a test can act at a moment that it chooses:
 *
 *   HOOK_FILE=NAME HOOK_READ=N HOOK_SIZE=OCTETS   gives the file that length before the N-th read of it;
 *                                                 where it becomes longer, the octets are a copy of those before its end
 *   HOOK_LOG=NAME                                 a line there for each file that is synced and each that is renamed
 */
#include <dlfcn.h>
#include <fcntl.h>
#include <stdio.h>
#include <stdlib.h>
#include <string.h>
#include <sys/stat.h>
#include <unistd.h>

static int is_the_file(int fd) {
    struct stat one, other;
    const char *name = getenv("HOOK_FILE");
    if (name == NULL || fstat(fd, &one) != 0 || stat(name, &other) != 0) return 0;
    return one.st_ino == other.st_ino && one.st_dev == other.st_dev;
}

static void act(void) {
    struct stat about;
    char octets[4096];
    off_t size = atoll(getenv("HOOK_SIZE"));
    int fd = open(getenv("HOOK_FILE"), O_RDWR);
    if (fd < 0 || fstat(fd, &about) != 0) abort();
    off_t more = size - about.st_size;
    if (more > 0) {
        if (pread(fd, octets, (size_t)more, about.st_size - more) != more) abort();
        if (pwrite(fd, octets, (size_t)more, about.st_size) != more) abort();
    } else if (ftruncate(fd, size) != 0) abort();
    close(fd);
}

ssize_t read(int fd, void *to, size_t count) {
    static int reads;
    ssize_t (*real)(int, void *, size_t) = dlsym(RTLD_NEXT, "read");
    const char *when = getenv("HOOK_READ");
    if (when != NULL && is_the_file(fd) && ++reads == atoi(when)) act();
    return real(fd, to, count);
}

static void note(const char *what, const char *name) {
    const char *last = strrchr(name, '/');
    FILE *log = getenv("HOOK_LOG") == NULL ? NULL : fopen(getenv("HOOK_LOG"), "a");
    if (log == NULL) return;
    fprintf(log, "%s %s\n", what, last == NULL ? name : last + 1);
    fclose(log);
}

int fsync(int fd) {
    int (*real)(int) = dlsym(RTLD_NEXT, "fsync");
    char link[64], name[4096];
    snprintf(link, sizeof link, "/proc/self/fd/%d", fd);
    ssize_t length = readlink(link, name, sizeof name - 1);
    name[length < 0 ? 0 : length] = '\0';
    char *end = strrchr(name, '.'); /* without the letters of a temporary name */
    if (end != NULL && strlen(end) == 7) *end = '\0';
    note("sync", name);
    return real(fd);
}

int rename(const char *from, const char *to) {
    int (*real)(const char *, const char *) = dlsym(RTLD_NEXT, "rename");
    note("name", to);
    return real(from, to);
}

int renameat2(int folder, const char *from, int other, const char *to, unsigned flags) {
    int (*real)(int, const char *, int, const char *, unsigned) = dlsym(RTLD_NEXT, "renameat2");
    note("name", to);
    return real(folder, from, other, to, flags);
}
