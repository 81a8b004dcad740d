/* Sums, by libmd. */
#include "sum.h"

#include <errno.h>
#include <sha2.h>
#include <stdio.h>
#include <string.h>
#include <unistd.h>

static void to_hex(const uint8_t *octets, size_t count, char *hex) {
    for (size_t at = 0; at < count; at++) sprintf(hex + 2 * at, "%02x", octets[at]);
}

bool sum_file(int fd, char hex[SUM_SHA256]) {
    uint8_t octets[16384], digest[SHA256_DIGEST_LENGTH];
    SHA2_CTX state;
    SHA256Init(&state);
    for (off_t at = 0;;) {
        ssize_t got = pread(fd, octets, sizeof octets, at);
        if (got < 0 && errno == EINTR) continue;
        if (got < 0) return false;
        if (got == 0) break;
        SHA256Update(&state, octets, (size_t)got);
        at += got;
    }
    SHA256Final(digest, &state);
    to_hex(digest, sizeof digest, hex);
    return true;
}

/* sha256sum writes a backslash before the line where a name has one, or a line break, and then these as letters. */
void sum_print(const char *hex, const char *name) {
    printf("%s%s  ", strpbrk(name, "\\\n\r") != NULL ? "\\" : "", hex);
    for (; *name != '\0'; name++)
        if (*name == '\\') fputs("\\\\", stdout);
        else if (*name == '\n') fputs("\\n", stdout);
        else if (*name == '\r') fputs("\\r", stdout);
        else putchar(*name);
    putchar('\n');
}

void samples_sum_begin(struct samples_sum *sum, unsigned bits) {
    MD5Init(&sum->state);
    sum->bits = bits;
    sum->other = false;
    sum->held = 0;
}

static void take_held(struct samples_sum *sum) {
    MD5Update(&sum->state, sum->octets, sum->held);
    sum->held = 0;
}

void samples_sum_put(struct samples_sum *sum, uint64_t sample) {
    uint64_t value = (uint64_t)((int64_t)sample >> (64 - sum->bits));
    if (sample << sum->bits != 0) sum->other = true;
    for (unsigned at = 0; at < (sum->bits + 7) / 8; at++) sum->octets[sum->held++] = (uint8_t)(value >> 8 * at);
    if (sum->held + sizeof value > sizeof sum->octets) take_held(sum);
}

void samples_sum_end(struct samples_sum *sum, char hex[SUM_MD5]) {
    uint8_t digest[MD5_DIGEST_LENGTH];
    take_held(sum);
    MD5Final(digest, &sum->state);
    to_hex(digest, sizeof digest, hex);
}
