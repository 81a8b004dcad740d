#include "plainwalks.h"

#include <stdio.h>
#include <string.h>

#include "plainlog.h"

enum { HEADER = 3 };

static struct plain_receiver fresh(const uint8_t *log) { return (struct plain_receiver){plain_format_of(log[0]), false, 0}; }

/* Whether a whole record stands there. */
static bool is_record(const uint8_t *log, size_t length, size_t place) {
    return length - place >= PLAIN_RECORD && log[place] <= 1;
}

void plain_anything(const uint8_t *log, size_t length, uint64_t answer[2]) {
    struct plain_receiver receiver = fresh(log);
    unsigned used = receiver.format.slots / log[1] * log[1];
    uint64_t index = 0;
    for (size_t place = HEADER; is_record(log, length, place); place += PLAIN_RECORD, index++) {
        if (plain_hear(&receiver, log + place).refusal) continue;
        if (!plain_sounds(receiver.format, used, log + place + 1)) continue;
        answer[0] = 1;
        answer[1] = index;
        return;
    }
    answer[0] = 0;
    answer[1] = index;
}

size_t plain_list(const uint8_t *log, size_t length, char *text, size_t size) {
    struct plain_receiver receiver = fresh(log);
    unsigned long long index = 0, sound = 0, missing = 0, refused = 0;
    size_t at = (size_t)snprintf(text, size, "format %u %u %u\n", log[0], log[1], log[2]);
    for (size_t place = HEADER; is_record(log, length, place); place += PLAIN_RECORD, index++) {
        struct plain_heard heard = plain_hear(&receiver, log + place);
        if (heard.refusal) {
            at += (size_t)snprintf(text + at, size - at, "%llu refused %u\n", index, heard.refusal);
            refused++;
        } else {
            at += (size_t)snprintf(text + at, size - at, "%llu sound %u number %u\n", index, heard.missing, heard.number);
            sound++;
            missing += heard.missing;
        }
    }
    return at + (size_t)snprintf(text + at, size - at, "end %llu sound %llu missing %llu refused\n", sound, missing, refused);
}

unsigned plain_salvage(const uint8_t *log, size_t length, uint8_t *out, size_t out_size, uint64_t *list, size_t list_size,
                       uint64_t counts[3]) {
    struct plain_receiver receiver = fresh(log);
    size_t place = HEADER, kept = 0, left_out = 0;
    for (; is_record(log, length, place); place += PLAIN_RECORD) {
        if (plain_hear(&receiver, log + place).refusal)
            left_out++;
        else
            kept++;
    }
    if (out_size < HEADER + kept * PLAIN_RECORD || list_size < 2 * left_out) return 21;
    receiver = fresh(log);
    memcpy(out, log, HEADER);
    out += HEADER;
    uint64_t index = 0;
    for (size_t at = HEADER; at < place; at += PLAIN_RECORD, index++) {
        unsigned refusal = plain_hear(&receiver, log + at).refusal;
        if (refusal) {
            *list++ = index;
            *list++ = refusal;
        } else {
            memcpy(out, log + at, PLAIN_RECORD);
            out += PLAIN_RECORD;
        }
    }
    counts[0] = HEADER + kept * PLAIN_RECORD;
    counts[1] = left_out;
    counts[2] = length - place;
    return 0;
}
