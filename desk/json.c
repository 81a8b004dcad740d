/* A document of JSON on standard output, and octets of any kind in JSON. */
#include "json.h"

#include <err.h>
#include <stdio.h>
#include <stdlib.h>
#include <string.h>

enum { DEEPEST = 8 };

static struct {
    unsigned depth;
    bool line; /* all of it stands in one */
    struct level {
        bool array, any;
    } open[DEEPEST];
} doc;

/* The members of the document itself, and those of an array in it, have lines of their own. */
static bool has_lines(const struct level *level) {
    return !doc.line && (level == doc.open || (level == doc.open + 1 && level->array));
}

static void begin_member(const char *key) {
    if (doc.depth == 0) return;
    struct level *level = &doc.open[doc.depth - 1];
    if (level->any) putchar(',');
    if (has_lines(level)) printf("\n%*s", (int)(2 * doc.depth), "");
    else if (level->any) putchar(' ');
    level->any = true;
    if (key != NULL) printf("\"%s\": ", key);
}

static void begin(const char *key, bool array) {
    begin_member(key);
    doc.open[doc.depth++] = (struct level){.array = array};
    putchar(array ? '[' : '{');
}

void doc_object(const char *key) {
    begin(key, false);
}

void doc_line(void) {
    doc.line = true;
    begin(NULL, false);
}

void doc_array(const char *key) {
    begin(key, true);
}

void doc_end(void) {
    const struct level *level = &doc.open[--doc.depth];
    if (level->any && has_lines(level)) printf("\n%*s", (int)(2 * doc.depth), "");
    putchar(level->array ? ']' : '}');
    if (doc.depth > 0) return;
    doc.line = false;
    putchar('\n');
}

void doc_number(const char *key, uint64_t number) {
    begin_member(key);
    printf("%llu", (unsigned long long)number);
}

void doc_flag(const char *key, bool flag) {
    begin_member(key);
    fputs(flag ? "true" : "false", stdout);
}

static void *or_end(void *made) {
    if (made == NULL) errx(STATUS_FILE, "there is no memory for a document of JSON");
    return made;
}

/* How many octets the next character has, 0 where they are none in UTF-8: libjansson knows. */
static size_t character(const char *octets, size_t count) {
    enum { LONGEST = 4 };
    for (size_t length = 1; length <= LONGEST && length <= count; length++) {
        json_t *one = octets[0] == '\0' ? NULL : json_stringn(octets, length);
        if (one == NULL) continue;
        json_decref(one);
        return length;
    }
    return 0;
}

/* The octets as text. Whether that says all of them. */
static json_t *text_of(const char *octets, size_t count, bool *all) {
    static const char other[] = "\xEF\xBF\xBD"; /* U+FFFD */
    json_t *text = memchr(octets, '\0', count) == NULL ? json_stringn(octets, count) : NULL;
    *all = text != NULL;
    if (text != NULL) return text;
    char *to = or_end(malloc(count * (sizeof other - 1) + 1));
    size_t length = 0;
    while (count > 0) {
        size_t taken = character(octets, count);
        size_t put = taken == 0 ? sizeof other - 1 : taken;
        memcpy(to + length, taken == 0 ? other : octets, put);
        length += put;
        octets += taken == 0 ? 1 : taken;
        count -= taken == 0 ? 1 : taken;
    }
    text = or_end(json_stringn(to, length));
    free(to);
    return text;
}

static json_t *hex_of(const uint8_t *octets, size_t count) {
    char *to = or_end(malloc(2 * count + 1));
    for (size_t at = 0; at < count; at++) sprintf(to + 2 * at, "%02x", octets[at]);
    json_t *text = or_end(json_stringn(to, 2 * count));
    free(to);
    return text;
}

static void print(const char *key, const char *more, json_t *text) {
    char whole[64];
    snprintf(whole, sizeof whole, "%s%s", key == NULL ? "" : key, more);
    begin_member(key == NULL ? NULL : whole);
    json_dumpf(text, stdout, JSON_ENCODE_ANY);
    json_decref(text);
}

/* Letters that stand in JSON as they are. */
static bool is_plain(const char *octets, size_t count) {
    for (size_t at = 0; at < count; at++)
        if (octets[at] < 0x20 || octets[at] > 0x7E || octets[at] == '"' || octets[at] == '\\') return false;
    return true;
}

void doc_octets(const char *key, const void *octets, size_t count) {
    bool all;
    if (is_plain(octets, count)) {
        begin_member(key);
        printf("\"%.*s\"", (int)count, (const char *)octets);
        return;
    }
    print(key, "", text_of(octets, count, &all));
    if (!all && key != NULL) print(key, "_hex", hex_of(octets, count));
}

void doc_text(const char *key, const char *text) {
    doc_octets(key, text, strlen(text));
}

void doc_refusal(const char *key, unsigned refusal) {
    doc_object(key);
    doc_number("refusal", refusal);
    doc_text("text", rime_refusal_text(refusal));
    doc_end();
}

void doc_broken(uint64_t record, unsigned refusal) {
    doc_object("broken");
    doc_number("record", record);
    doc_number("refusal", refusal);
    doc_text("text", rime_refusal_text(refusal));
    doc_end();
}

void json_put_hex(json_t *object, const char *key, const void *octets, size_t count) {
    char whole[64];
    snprintf(whole, sizeof whole, "%s_hex", key);
    json_object_set_new(object, whole, hex_of(octets, count));
}

void json_put_octets(json_t *object, const char *key, const void *octets, size_t count) {
    bool all;
    json_object_set_new(object, key, text_of(octets, count, &all));
    if (!all) json_put_hex(object, key, octets, count);
}

static int digit(char letter) {
    const char *digits = "0123456789abcdef", *at = letter == '\0' ? NULL : strchr(digits, letter);
    return at == NULL ? -1 : (int)(at - digits);
}

ssize_t json_get_hex(const json_t *object, const char *key, void *to, size_t room) {
    char whole[64];
    snprintf(whole, sizeof whole, "%s_hex", key);
    const json_t *member = json_object_get(object, whole);
    if (member == NULL) return 0;
    const char *text = json_string_value(member);
    size_t length = json_string_length(member);
    if (text == NULL || length % 2 != 0 || length / 2 > room) return -1;
    for (size_t at = 0; at < length; at += 2) {
        int high = digit(text[at]), low = digit(text[at + 1]);
        if (high < 0 || low < 0) return -1;
        ((uint8_t *)to)[at / 2] = (uint8_t)(high * 16 + low);
    }
    return (ssize_t)(length / 2);
}

ssize_t json_get_octets(const json_t *object, const char *key, void *to, size_t room) {
    char whole[64];
    const json_t *member = json_object_get(object, key);
    snprintf(whole, sizeof whole, "%s_hex", key);
    if (member != NULL && !json_is_string(member)) return -1;
    if (json_object_get(object, whole) != NULL) return json_get_hex(object, key, to, room);
    if (member == NULL) return 0;
    size_t length = json_string_length(member);
    if (length > room) return -1;
    memcpy(to, json_string_value(member), length);
    return (ssize_t)length;
}
