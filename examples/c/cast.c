/*
 * A cast of 60 in 56 hex at 48,000 samples a second: which circuits it takes, and what the checker says.
 *
 * A circuit carries up to S = 12 channels of 56 hex. Its cells per second are 48,000 divided by T, rounded up.
 */
#include <inttypes.h>
#include <stdio.h>

#include "rimesatchel.h"

enum { FORMAT = 0x56, CAST = 60, FREQUENCY = 48000, CIRCUITS = 6 };

static void print_run(const char *what, const uint32_t *run, size_t length) {
    printf("%s", what);
    for (size_t circuit = 0; circuit < length; circuit++) printf(" %" PRIu32, run[circuit]);
    printf("\n");
}

static void check(const uint32_t *shares, const uint32_t *allowances, size_t circuits) {
    static const char *const answers[] = {"refused", "yes", "no, the share of circuit", "no, the allowance of circuit",
                                          "no, the sum"};
    uint32_t answer[2];
    print_run("shares", shares, circuits);
    print_run("allowances", allowances, circuits);
    uint8_t refusal = rime_circuits_check(FORMAT, CAST, FREQUENCY, shares, circuits, allowances, circuits, answer);
    printf("the checker: %s", answers[answer[0]]);
    if (refusal != RIME_DONE) printf(" %u", refusal);
    if (answer[0] == RIME_PLAN_SHARE || answer[0] == RIME_PLAN_ALLOWANCE) printf(" %" PRIu32, answer[1]);
    printf("\n\n");
}

int main(void) {
    uint32_t planned[CIRCUITS];
    printf("planned over four circuits: refused %u\n", rime_circuits_plan(FORMAT, CAST, planned, 4));
    printf("planned over six circuits: refused %u\n", rime_circuits_plan(FORMAT, CAST, planned, CIRCUITS));
    print_run("shares", planned, CIRCUITS);
    printf("\n");

    /* The five that were filled: each a cell for every sample time. */
    const uint32_t wide[] = {48000, 48000, 48000, 48000, 48000};
    check(planned, wide, 5);

    /* The sixth is left over, and the checker calls a share of 0 a fault. */
    const uint32_t six[] = {48000, 48000, 48000, 48000, 48000, 48000};
    check(planned, six, CIRCUITS);

    /* A narrower third circuit: it can carry 6 channels at 24,000 cells a second, but not 12. */
    const uint32_t narrow[] = {48000, 48000, 24000, 48000, 48000};
    check(planned, narrow, 5);

    /* Another planner's shares for it: two sample times in a cell of the third and of a sixth circuit. */
    const uint32_t other[] = {12, 12, 6, 12, 12, 6}, enough[] = {48000, 48000, 24000, 48000, 48000, 24000};
    check(other, enough, CIRCUITS);

    /* One channel forgotten. */
    const uint32_t short_of[] = {12, 12, 6, 12, 12, 5};
    check(short_of, enough, CIRCUITS);
    return 0;
}
