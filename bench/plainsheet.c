/*
 * The figures of a log as a good engineer counts them in plain C: judge a record, then count the spoiled ones among its own
 * samples; a gap's marks are counted by one multiplication. rime_sheet is measured against it.
 */
#include "plainsheet.h"

#include "plainlog.h"

/* How many of the used slots, the first ones, are spoiled: their order doesn't matter. */
static unsigned spoiled_in(struct plain_format format, const uint8_t *cell, unsigned used) {
    unsigned spoiled = 0;
    if (!format.overhead) return 0;
    for (unsigned slot = 0; slot < used; slot++) spoiled += plain_is_spoiled(format, plain_subframe(format, cell, slot));
    return spoiled;
}

/* A header that is taken is three octets. */
void plain_figures(const uint8_t *log, size_t length, uint64_t figures[10]) {
    if (length < 3) return;
    struct plain_receiver receiver = {plain_format_of(log[0]), false, 0};
    if (plain_settings(receiver.format, log[1], log[2])) return;
    unsigned used = receiver.format.slots / log[1] * log[1];
    for (size_t place = 3; length - place >= PLAIN_RECORD && log[place] <= 1; place += PLAIN_RECORD) {
        struct plain_heard heard = plain_hear(&receiver, log + place);
        if (heard.refusal == 8) {
            figures[2]++;
        } else if (heard.refusal == 15) {
            figures[4]++;
        } else if (heard.refusal == 9) {
            figures[3]++;
        } else {
            unsigned spoiled = spoiled_in(receiver.format, log + place + 1, used);
            figures[0]++;
            figures[1] += heard.missing;
            figures[6] += used - spoiled;
            figures[7] += spoiled;
            figures[8] += (uint64_t)heard.missing * used;
        }
    }
}
