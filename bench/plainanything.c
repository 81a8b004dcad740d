/*
 * anything as a good engineer writes it in plain C: fread a record, judge it, look at its samples. The proved program is measured
 * against it. It reads standard input, with a header of three octets.
 */
#include <stdio.h>

#include "plainlog.h"

int main(void) {
    int header[3];
    for (int i = 0; i < 3; i++) {
        header[i] = getchar();
        if (header[i] == EOF || header[i] > 127) {
            printf("log refused 11\n");
            return 0;
        }
    }
    struct plain_receiver receiver = {plain_format_of((unsigned)header[0]), false, 0};
    unsigned channels = (unsigned)header[1];
    unsigned refusal = plain_settings(receiver.format, channels, (unsigned)header[2]);
    if (refusal) {
        printf("log refused %u\n", refusal);
        return 0;
    }
    unsigned used = receiver.format.slots / channels * channels;
    uint8_t record[PLAIN_RECORD];
    unsigned long long index = 0;
    for (;; index++) {
        if (fread(record, 1, sizeof record, stdin) < sizeof record || record[0] > 1) break;
        if (plain_hear(&receiver, record).refusal) continue;
        if (plain_sounds(receiver.format, used, record + 1)) {
            printf("yes %llu\n", index);
            return 0;
        }
    }
    printf("no %llu\n", index);
    return 0;
}
