/*
 * A library loaded before glibc: the n-th read of a log fails, as of a disk that is broken in the middle. The environment's
 * FAILING_READ says which one, counted from 1 over all descriptors.
 */
#include <errno.h>
#include <stdlib.h>
#include <sys/syscall.h>
#include <unistd.h>

ssize_t read(int fd, void *octets, size_t count) {
    static long reads;
    const char *failing = getenv("FAILING_READ");
    if (failing != NULL && ++reads == atol(failing)) {
        errno = EIO;
        return -1;
    }
    return syscall(SYS_read, fd, octets, count);
}
