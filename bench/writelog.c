/*
 * Writes a log to standard output, for the programs to be measured on: two channels in order 0.
 *
 *   writelog FORMAT RECORDS            some cells lost, some spoiled (logs.h)
 *   writelog FORMAT RECORDS silence    no loss, and no sample but zeros
 *
 * FORMAT is the octet in hexadecimal.
 */
#include <stdio.h>
#include <stdlib.h>
#include <string.h>

#include "formats.h"
#include "logs.h"

int main(int argc, char **argv) {
    if (argc < 3 || argc > 4 || (argc == 4 && strcmp(argv[3], "silence") != 0)) {
        fputs("usage: writelog FORMAT RECORDS [silence]\n", stderr);
        return 2;
    }
    const struct format *format = format_of((uint8_t)strtoul(argv[1], NULL, 16));
    size_t records = strtoul(argv[2], NULL, 10), octets = log_octets(records);
    uint8_t *log = malloc(octets);
    if (log == NULL) {
        fputs("writelog: no memory\n", stderr);
        return 1;
    }
    (argc == 4 ? make_silence : make_log)(format, 2, 0, records, log);
    bool written = fwrite(log, 1, octets, stdout) == octets && fflush(stdout) == 0;
    free(log);
    return written ? 0 : 1;
}
