/* A bar on a terminal, from the first second on; nothing in a pipe. */
#include <stdio.h>
#include <time.h>
#include <unistd.h>

#include "desk.h"

enum { WIDTH = 40 };

static struct {
    const char *name;
    uint64_t total;
    struct timespec began;
    int shown; /* tenths of a second at which it was last drawn, 0 where it never was */
    bool on;
} bar;

/* What a bar within the bar stands in for. */
static const char *outer_name;
static uint64_t outer_total;

static int tenths(void) {
    struct timespec now;
    clock_gettime(CLOCK_MONOTONIC, &now);
    return (int)((now.tv_sec - bar.began.tv_sec) * 10 + (now.tv_nsec - bar.began.tv_nsec) / 100000000);
}

void progress_begin(const char *name, uint64_t total, bool quiet) {
    bar.name = name;
    bar.total = total;
    bar.shown = 0;
    bar.on = !quiet && isatty(STDERR_FILENO);
    clock_gettime(CLOCK_MONOTONIC, &bar.began);
}

static void draw(uint64_t done) {
    if (bar.total == 0) {
        fprintf(stderr, "\r%s: %.1f MB", bar.name, (double)done / 1e6);
        return;
    }
    unsigned percent = done >= bar.total ? 100 : (unsigned)(done * 100 / bar.total);
    fprintf(stderr, "\r%s: [", bar.name);
    for (unsigned at = 0; at < WIDTH; at++) fputc(at * 100 < percent * WIDTH ? '#' : ' ', stderr);
    fprintf(stderr, "] %3u %%", percent);
}

void progress_at(uint64_t done) {
    if (!bar.on) return;
    int now = tenths();
    if (now < 10 || now < bar.shown + 2) return;
    bar.shown = now;
    draw(done);
    fflush(stderr);
}

void progress_clear(void) {
    if (bar.on && bar.shown != 0) fputs("\r\033[K", stderr);
}

void progress_end(void) {
    progress_clear();
    bar.on = false;
}

void progress_within(const char *name, uint64_t total) {
    outer_name = bar.name;
    outer_total = bar.total;
    bar.name = name;
    bar.total = total;
}

void progress_without(void) {
    progress_clear();
    bar.name = outer_name;
    bar.total = outer_total;
}
