/*
 * Runs a command and says how long it took and the most memory that it held:
 *
 *   peak COMMAND..   on standard error a line: seconds by the clock, user, system, and KiB
 *
 * It ends with the command's status. A caller with much memory of its own can't ask the system instead: what it
 * holds when it starts the command counts as the command's.
 */
#include <err.h>
#include <stdio.h>
#include <sys/resource.h>
#include <sys/wait.h>
#include <time.h>
#include <unistd.h>

static double seconds(struct timeval time) {
    return (double)time.tv_sec + (double)time.tv_usec / 1e6;
}

int main(int argc, char **argv) {
    if (argc < 2) errx(64, "usage: peak COMMAND..");
    struct timespec began, ended;
    clock_gettime(CLOCK_MONOTONIC, &began);
    pid_t child = fork();
    if (child == 0) {
        execvp(argv[1], argv + 1);
        err(127, "%s", argv[1]);
    }
    int status;
    struct rusage used;
    if (child < 0 || wait4(child, &status, 0, &used) < 0) err(127, "%s", argv[1]);
    clock_gettime(CLOCK_MONOTONIC, &ended);
    double taken = (double)(ended.tv_sec - began.tv_sec) + (double)(ended.tv_nsec - began.tv_nsec) / 1e9;
    fprintf(stderr, "%.1f s, %.1f s user, %.1f s system, %ld KiB\n", taken, seconds(used.ru_utime),
            seconds(used.ru_stime), used.ru_maxrss);
    return WIFEXITED(status) ? WEXITSTATUS(status) : 128 + WTERMSIG(status);
}
