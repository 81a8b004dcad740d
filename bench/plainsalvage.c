/*
 * salvage as a good engineer writes it in plain C: fread a record, judge it, fwrite it or fprintf a line. The proved program is
 * measured against it. It reads standard input, with a header of three octets that is taken.
 */
#include <stdio.h>

#include "plainlog.h"

int main(void) {
    uint8_t header[3], record[PLAIN_RECORD];
    if (fread(header, 1, sizeof header, stdin) < sizeof header) {
        fprintf(stderr, "log refused 11\n");
        return 0;
    }
    struct plain_receiver receiver = {plain_format_of(header[0]), false, 0};
    unsigned refusal = plain_settings(receiver.format, header[1], header[2]);
    if (refusal) {
        fprintf(stderr, "log refused %u\n", refusal);
        return 0;
    }
    fwrite(header, 1, sizeof header, stdout);
    unsigned long long kept = 0, left_out = 0, cut = 0;
    size_t got;
    while ((got = fread(record, 1, sizeof record, stdin)) == sizeof record && record[0] <= 1) {
        struct plain_heard heard = plain_hear(&receiver, record);
        if (heard.refusal) {
            fprintf(stderr, "%llu refused %u\n", kept + left_out, heard.refusal);
            left_out++;
        } else {
            fwrite(record, 1, sizeof record, stdout);
            kept++;
        }
    }
    for (; got > 0; got = fread(record, 1, sizeof record, stdin)) cut += got;
    fprintf(stderr, "end %llu kept %llu left out %llu cut\n", kept, left_out, cut);
    return 0;
}
