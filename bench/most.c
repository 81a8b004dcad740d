/*
 * Refusal 19 met by one call. In 52 hex with 24 channels C x T is 24, and each record after a gap of 14 hands out 15 x 24
 * entries, 336 of them marked 2. After the first record 12,782,640 of those make 4,294,967,040 such marks, which a sheet can
 * still say; one record more is refused, with the rows untouched. With an argument the log is written to standard output instead,
 * after its length, as the program sheet takes it.
 */
#include <stdint.h>
#include <stdio.h>
#include <stdlib.h>
#include <string.h>

#include "rimesatchel.h"

#define RECORD_OCTETS 49
#define MOST_AFTER_GAPS 12782640u
#define GAP_ENTRIES 336u

static const uint32_t format = 0x52, channels = 24;

/* The records of sixteen cells, each numbered one less than the one before, by the library's own sender. */
static void sixteen(uint8_t *records) {
    uint64_t samples[24] = {0};
    uint8_t ancillary[24] = {0};
    for (uint32_t number = 0; number < 16; number++) {
        uint8_t state[7];
        uint8_t *record = records + (15 - number) * RECORD_OCTETS;
        record[0] = 0;
        if (rime_sender_open(format, channels, 0, number, false, 0, state) != RIME_DONE) exit(1);
        if (rime_send(state, 0, samples, 24, ancillary, 24, record + 1, 48) != RIME_DONE) exit(1);
    }
}

static void expect(const char *what, uint64_t is, uint64_t expected) {
    if (is == expected) return;
    fprintf(stderr, "%s: %llu, expected %llu\n", what, (unsigned long long)is, (unsigned long long)expected);
    exit(1);
}

int main(int argc, char **argv) {
    (void)argv;
    uint64_t records = 1 + MOST_AFTER_GAPS + 1;
    uint64_t length = 3 + records * RECORD_OCTETS;
    uint8_t *octets = malloc(length);
    if (octets == NULL) {
        fprintf(stderr, "no room for %llu octets\n", (unsigned long long)length);
        return 2;
    }
    uint8_t round[16 * RECORD_OCTETS];
    sixteen(round);
    memcpy(octets, (uint8_t[]){0x52, 24, 0}, 3);
    for (uint64_t record = 0; record < records; record++) {
        memcpy(octets + 3 + record * RECORD_OCTETS, round + record % 16 * RECORD_OCTETS, RECORD_OCTETS);
    }
    if (argc > 1) {
        printf("%llu\n", (unsigned long long)length);
        return fwrite(octets, 1, length, stdout) == length ? 0 : 2;
    }

    uint32_t rows[RIME_SHEET_ROW], totals[RIME_SHEET_ROW];
    uint64_t shorter = length - RECORD_OCTETS;
    expect("a record less", rime_sheet(octets, shorter, &shorter, 1, rows, RIME_SHEET_ROW, totals), RIME_DONE);
    expect("its marks 2", totals[RIME_SHEET_MARKED_2], (uint64_t)MOST_AFTER_GAPS * GAP_ENTRIES);
    expect("its sound cells", rows[RIME_SHEET_SOUND], records - 1);

    memset(rows, 7, sizeof rows);
    expect("all records", rime_sheet(octets, length, &length, 1, rows, RIME_SHEET_ROW, totals), RIME_REFUSED_TOTAL);
    for (int column = 0; column < RIME_SHEET_ROW; column++) {
        expect("a row of a refused sheet", rows[column], 0x07070707);
        expect("a total of a refused sheet", totals[column], 0);
    }
    printf("%llu octets in one lent run: refused 19; a record less: %u marks 2\n", (unsigned long long)length,
           MOST_AFTER_GAPS * GAP_ENTRIES);
    free(octets);
    return 0;
}
