/* Sums: SHA-256 of a finished file, and MD5 of samples. */
#ifndef SUM_H
#define SUM_H

#include <md5.h>

#include "desk.h"

enum { SUM_SHA256 = 65, SUM_MD5 = 33 }; /* letters of hex, and the zero behind them */

bool sum_file(int fd, char hex[SUM_SHA256]);       /* false and errno where it can't be read */
void sum_print(const char *hex, const char *name); /* the line of sha256sum */

/*
 * MD5 of samples as FLAC has it in its own header: whole numbers of a file's bits, channels side by side, each in as
 * many octets as it needs, the lowest first. Samples are given with their top bit at the top of 64.
 */
struct samples_sum {
    MD5_CTX state;
    unsigned bits;
    bool other; /* a sample had bits below these that aren't 0 */
    size_t held;
    uint8_t octets[4096];
};
void samples_sum_begin(struct samples_sum *sum, unsigned bits);
void samples_sum_put(struct samples_sum *sum, uint64_t sample);
void samples_sum_end(struct samples_sum *sum, char hex[SUM_MD5]);

#endif
