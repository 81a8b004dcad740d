/* Refusals of settings and headers, with the limit that was passed, or with what a file is that is no log. */
#include <err.h>
#include <stdio.h>
#include <string.h>

#include "desk.h"

enum { WORDS = 256 };

/* The formats that there are, by the proved opening. */
static void put_formats(char words[WORDS], unsigned format) {
    uint8_t state[RIME_RECEIVER_STATE];
    int length = snprintf(words, WORDS, "%02X hex: the formats are", format);
    for (unsigned octet = 0; octet < 256; octet++)
        if (rime_receiver_open(octet, 1, 0, state) == RIME_DONE)
            length += snprintf(words + length, (size_t)(WORDS - length), " %02X", octet);
    snprintf(words + length, (size_t)(WORDS - length), ": ");
}

/* Which setting it is, and its limit. Nothing where no single one is meant. */
static void put_limit(char words[WORDS], unsigned refusal, struct settings settings) {
    words[0] = '\0';
    if (refusal == RIME_REFUSED_FORMAT) put_formats(words, settings.format);
    else if (refusal == RIME_REFUSED_CHANNELS)
        snprintf(words, WORDS, "%u channel%s: %02X hex holds at %s %u: ", settings.channels, plural(settings.channels),
                 settings.format, settings.channels == 0 ? "least 1, at most" : "most", format_of(settings.format).slots);
    else if (refusal == RIME_REFUSED_ORDER) snprintf(words, WORDS, "order %u: the orders are 0 and 1: ", settings.order);
    else if (refusal == RIME_REFUSED_STATE)
        snprintf(words, WORDS, "%s %u: at most 15: ", settings.number > 15 ? "--number" : "--second",
                 settings.number > 15 ? settings.number : settings.second);
}

int say_settings(const char *name, const char *what, unsigned refusal, struct settings settings) {
    char words[WORDS];
    put_limit(words, refusal, settings);
    warnx("%s: %s%s refused %u: %s", name, words, what, refusal, rime_refusal_text(refusal));
    return STATUS_REFUSED;
}

/* A kind of file that is often taken for a log, by its first octets; NULL where it is none of them. */
static const char *other_kind(const uint8_t *octets, size_t count) {
    static const struct {
        const char *first, *kind;
    } known[] = {
        {"RIFF", "a WAV file"}, {"RF64", "an RF64 file"}, {"riff", "a W64 file"},    {"fLaC", "a FLAC file"},
        {"FORM", "an AIFF file"}, {"OggS", "an Ogg file"}, {"ID3", "an MP3 file"}, {"\x89PNG", "a picture"},
    };
    for (size_t at = 0; at < sizeof known / sizeof *known; at++) {
        size_t length = strlen(known[at].first);
        if (count >= length && memcmp(octets, known[at].first, length) == 0) return known[at].kind;
    }
    return NULL;
}

/* Where the three numbers of the header are of one octet each, as those of every log are, they can be shown. */
int say_header(const char *name, const uint8_t *octets, size_t count, unsigned refusal) {
    char words[WORDS] = "";
    const char *kind = other_kind(octets, count);
    if (count == 0) snprintf(words, WORDS, "this isn't a log: it is empty: ");
    else if (kind != NULL) snprintf(words, WORDS, "this isn't a log: it begins as %s does: ", kind);
    else if (count >= 3 && (octets[0] | octets[1] | octets[2]) < 0x80)
        put_limit(words, refusal, (struct settings){octets[0], octets[1], octets[2], 0, 0});
    warnx("%s: %sthe log is refused %u: %s", name, words, refusal, rime_refusal_text(refusal));
    return STATUS_REFUSED;
}
