/*
 * A log of any samples and ancillary numbers, by the library: for tests of the desk tool, whose own `send` has samples of
 * at most 32 bits, and whose channel status is the same in all channels.
 *
 *   desk_log FORMAT CHANNELS ORDER < entries > log
 *
 * FORMAT is in hex. An entry is the sample in eight octets, the lowest first, and an octet of ancillary bits. A last cell
 * that isn't full is filled with zeros.
 */
#include <err.h>
#include <stdio.h>
#include <stdlib.h>
#include <string.h>

#include "rimesatchel.h"

enum { ENTRY = 9 };

static void done(unsigned refusal) {
    if (refusal != RIME_DONE) errx(1, "refused %u: %s", refusal, rime_refusal_text(refusal));
}

static unsigned slots_of(unsigned format) {
    unsigned bits = 4 * (format % 16) + 4 * (format / 64) + 4 * (format / 16 % 4);
    return 8 * RIME_CELL_OCTETS / bits;
}

int main(int argc, char **argv) {
    if (argc != 4) errx(64, "usage: desk_log FORMAT CHANNELS ORDER");
    unsigned format = (unsigned)strtoul(argv[1], NULL, 16), channels = (unsigned)atoi(argv[2]);
    unsigned order = (unsigned)atoi(argv[3]);
    uint8_t state[RIME_SENDER_STATE], out[RIME_RECORD_OCTETS], cell[RIME_CELL_OCTETS];
    uint64_t next;
    done(rime_sender_open(format, channels, order, 0, false, 0, state));
    done(rime_log_put_header(out, sizeof out, format, channels, order, &next));
    fwrite(out, 1, next, stdout);
    size_t entries = slots_of(format) / channels * channels, got;
    uint8_t in[RIME_MOST_SLOTS * ENTRY];
    while ((got = fread(in, ENTRY, entries, stdin)) > 0) {
        uint64_t samples[RIME_MOST_SLOTS] = {0};
        uint8_t ancillary[RIME_MOST_SLOTS] = {0};
        for (size_t at = 0; at < got; at++) {
            for (unsigned octet = 0; octet < 8; octet++) samples[at] |= (uint64_t)in[at * ENTRY + octet] << 8 * octet;
            ancillary[at] = in[at * ENTRY + 8];
        }
        done(rime_send(state, false, samples, entries, ancillary, entries, cell, sizeof cell));
        done(rime_log_put_record(out, sizeof out, 0, cell, sizeof cell, false, &next));
        fwrite(out, 1, next, stdout);
    }
    return fflush(stdout) == 0 ? 0 : 1;
}
