/*
 * rime_sheet beside plain C on 64 MiB of logs, in each format: the time of each, and their ratio. One log of two channels in order 0,
 * with some losses (logs.c), lies in one lent run.
 *
 * The least of five runs counts, in processor time. The numbers of both are compared first. The floor is what it takes to look at
 * one octet of each record: without overhead there is nothing else to look at, and no program is faster than the memory.
 */
#include <stdbool.h>
#include <stdint.h>
#include <stdio.h>
#include <stdlib.h>
#include <string.h>
#include <time.h>

#include "formats.h"
#include "logs.h"
#include "plainsheet.h"
#include "rimesatchel.h"

#define RUNS 5
#define MOST_OF_PLAIN 0.40
#define OCTETS ((size_t)64 * 1024 * 1024)

static uint32_t rows[RIME_SHEET_ROW];
static uint32_t totals[RIME_SHEET_ROW];
static uint64_t figures[RIME_SHEET_ROW];

static double seconds_now(void) {
    struct timespec now;
    clock_gettime(CLOCK_PROCESS_CPUTIME_ID, &now);
    return (double)now.tv_sec + (double)now.tv_nsec * 1e-9;
}

static double by_library(const uint8_t *octets, uint64_t length) {
    double start = seconds_now();
    if (rime_sheet(octets, length, &length, 1, rows, RIME_SHEET_ROW, totals) != RIME_DONE) exit(1);
    return seconds_now() - start;
}

static double by_plain(const uint8_t *octets, uint64_t length) {
    double start = seconds_now();
    memset(figures, 0, sizeof figures);
    plain_figures(octets, length, figures);
    return seconds_now() - start;
}

static double by_floor(const uint8_t *octets, uint64_t length) {
    double start = seconds_now();
    uint64_t above = 0;
    for (size_t place = HEADER_OCTETS; place < length; place += RECORD_OCTETS) above += octets[place] > 1;
    if (above != 0) exit(1);
    return seconds_now() - start;
}

static void take_least(double *least, double seconds) {
    if (seconds < *least) *least = seconds;
}

static void compare(const struct format *format) {
    for (int column = 0; column < RIME_SHEET_PER_MILLION; column++) {
        if (totals[column] == figures[column]) continue;
        fprintf(stderr, "%02X hex: number %d differs: %u and %llu\n", format->octet, column, totals[column],
                (unsigned long long)figures[column]);
        exit(1);
    }
}

static void measure(const struct format *format, uint8_t *octets, size_t records) {
    size_t length = log_octets(records);
    double ours = 1e9, plain = 1e9, floor = 1e9;
    make_log(format, 2, 0, records, octets);
    for (int run = 0; run < RUNS; run++) {
        take_least(&ours, by_library(octets, length));
        take_least(&plain, by_plain(octets, length));
        take_least(&floor, by_floor(octets, length));
    }
    compare(format);
    printf("%02X hex  %8.4f s  %8.4f s  %8.4f s  %5.2f%s%s\n", format->octet, ours, plain, floor, ours / plain,
           ours / plain > MOST_OF_PLAIN ? "  above" : "", format->overhead ? "" : "  (no marks to count)");
}

int main(void) {
    size_t records = OCTETS / RECORD_OCTETS;
    uint8_t *octets = malloc(log_octets(records));
    if (octets == NULL) {
        fputs("sheet: no memory for a log of 64 MiB\n", stderr);
        return 1;
    }
    printf("a sheet over 64 MiB; ratio: rime_sheet / plain C (asked: at most %.2f)\n", MOST_OF_PLAIN);
    printf("        rime_sheet     plain C       floor  ratio\n");
    for (size_t at = 0; at < FORMATS; at++) measure(&formats[at], octets, records);
    free(octets);
    return 0;
}
