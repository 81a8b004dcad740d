/*
 * linelist as a good engineer writes it in plain C: fread a record, judge it, printf a line. The proved linelist is measured
 * against it. It reads standard input.
 */
#include <stdio.h>

#include "plainlog.h"

#define MOST_OCTETS 4294967295u

/* A log number: 11 where it is cut, too long or not shortest. */
static unsigned read_number(unsigned *value) {
    *value = 0;
    for (unsigned shift = 0; shift < 21; shift += 7) {
        int octet = getchar();
        if (octet == EOF) return 11;
        *value |= (unsigned)(octet & 127) << shift;
        if (octet < 128) return octet == 0 && shift > 0 ? 11 : 0;
    }
    return 11;
}

static unsigned read_header(unsigned header[3]) {
    for (int i = 0; i < 3; i++) {
        unsigned refusal = read_number(&header[i]);
        if (refusal) return refusal;
    }
    return plain_settings(plain_format_of(header[0]), header[1], header[2]);
}

int main(void) {
    unsigned header[3];
    unsigned refusal = read_header(header);
    if (refusal) {
        printf("log refused %u\n", refusal);
        return 0;
    }
    printf("format %u %u %u\n", header[0], header[1], header[2]);
    struct plain_receiver receiver = {plain_format_of(header[0]), false, 0};
    uint8_t record[PLAIN_RECORD];
    uint64_t sound = 0, all_missing = 0, refused = 0, octets = 3;
    for (uint64_t index = 0;; index++) {
        size_t got = fread(record, 1, sizeof record, stdin);
        if (got == 0) break;
        bool past = octets + got > MOST_OCTETS;
        bool none_within = octets >= MOST_OCTETS;
        octets += got;
        unsigned broken = none_within ? 13 : record[0] > 1 ? 11 : past ? 13 : got < sizeof record ? 12 : 0;
        if (broken) {
            printf("%llu broken %u\n", (unsigned long long)index, broken);
            break;
        }
        struct plain_heard heard = plain_hear(&receiver, record);
        if (heard.refusal) {
            printf("%llu refused %u\n", (unsigned long long)index, heard.refusal);
            refused++;
            continue;
        }
        printf("%llu sound %u number %u\n", (unsigned long long)index, heard.missing, heard.number);
        sound++;
        all_missing += heard.missing;
    }
    printf("end %llu sound %llu missing %llu refused\n", (unsigned long long)sound, (unsigned long long)all_missing,
           (unsigned long long)refused);
    return 0;
}
