/* The chunk bext of EBU Tech 3285, as libsndfile gives it: in JSON, and as a chunk. Its fields stand in this order. */
#include <stddef.h>
#include <string.h>

#include "kept.h"

enum kind { TEXT, NUMBER, OCTETS };

#define FIELD(name, kind) \
    { #name, offsetof(kept_bext, name), sizeof((kept_bext *)0)->name, kind }
static const struct field {
    const char *name;
    size_t at, size;
    enum kind kind;
} fields[] = {
    FIELD(description, TEXT),
    FIELD(originator, TEXT),
    FIELD(originator_reference, TEXT),
    FIELD(origination_date, TEXT),
    FIELD(origination_time, TEXT),
    FIELD(time_reference_low, NUMBER),
    FIELD(time_reference_high, NUMBER),
    FIELD(version, NUMBER),
    FIELD(umid, OCTETS),
    FIELD(loudness_value, NUMBER),
    FIELD(loudness_range, NUMBER),
    FIELD(max_true_peak_level, NUMBER),
    FIELD(max_momentary_loudness, NUMBER),
    FIELD(max_shortterm_loudness, NUMBER),
    FIELD(reserved, OCTETS),
};
enum { FIELDS = sizeof fields / sizeof *fields };

static size_t without_zeros(const char *octets, size_t count) {
    while (count > 0 && octets[count - 1] == '\0') count--;
    return count;
}

/* A number of 4 octets has no sign, one of 2 has. */
static int64_t number_of(const struct field *field, const char *from) {
    uint32_t four;
    int16_t two;
    if (field->size == sizeof two) {
        memcpy(&two, from, sizeof two);
        return two;
    }
    memcpy(&four, from, sizeof four);
    return four;
}

json_t *bext_to_json(const kept_bext *bext) {
    json_t *object = json_object();
    for (const struct field *field = fields; field < fields + FIELDS; field++) {
        const char *from = (const char *)bext + field->at;
        size_t count = without_zeros(from, field->size);
        if (field->kind == NUMBER) json_object_set_new(object, field->name, json_integer(number_of(field, from)));
        else if (field->kind == TEXT) json_put_octets(object, field->name, from, count);
        else if (count > 0) json_put_hex(object, field->name, from, count);
    }
    json_put_octets(object, "coding_history", bext->coding_history,
                    without_zeros(bext->coding_history, bext->coding_history_size));
    return object;
}

static bool get_number(const struct field *field, const json_t *object, char *to) {
    const json_t *member = json_object_get(object, field->name);
    json_int_t value = json_integer_value(member);
    if (member == NULL) return true;
    if (!json_is_integer(member)) return false;
    if (field->size == sizeof(int16_t)) {
        int16_t two = (int16_t)value;
        memcpy(to, &two, sizeof two);
        return value == two;
    }
    uint32_t four = (uint32_t)value;
    memcpy(to, &four, sizeof four);
    return value == (json_int_t)four;
}

bool bext_of_json(kept_bext *bext, const json_t *object) {
    memset(bext, 0, sizeof *bext);
    if (!json_is_object(object)) return false;
    bool good = true;
    for (const struct field *field = fields; field < fields + FIELDS; field++) {
        char *to = (char *)bext + field->at;
        if (field->kind == NUMBER) good &= get_number(field, object, to);
        else if (field->kind == TEXT) good &= json_get_octets(object, field->name, to, field->size) >= 0;
        else good &= json_get_hex(object, field->name, to, field->size) >= 0;
    }
    ssize_t history = json_get_octets(object, "coding_history", bext->coding_history, KEPT_HISTORY);
    bext->coding_history_size = history < 0 ? 0 : (uint32_t)history;
    return good && history >= 0;
}

void bext_put(const kept_bext *bext, struct tail *tail) {
    size_t begun = tail_begin(tail, "bext");
    for (const struct field *field = fields; field < fields + FIELDS; field++) {
        const char *from = (const char *)bext + field->at;
        if (field->kind == NUMBER) tail_number(tail, (uint64_t)number_of(field, from), (unsigned)field->size);
        else tail_put(tail, from, field->size);
    }
    tail_put(tail, bext->coding_history, bext->coding_history_size);
    tail_end(tail, begun);
}
