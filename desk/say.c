/* Lines on standard error. */
#include <err.h>
#include <errno.h>
#include <stdio.h>
#include <string.h>

#include "desk.h"

const char *shown(const char *name, bool is_output) {
    if (strcmp(name, "-") != 0) return name;
    return is_output ? "standard output" : "standard input";
}

int say_failed(const char *name) {
    warn("%s", name);
    return STATUS_FILE;
}

int say_unfit(const char *name, const char *why) {
    warnx("%s: %s", name, why);
    return STATUS_FILE;
}

int say_refused(const char *name, const char *what, unsigned refusal) {
    warnx("%s: %s refused %u: %s", name, what, refusal, rime_refusal_text(refusal));
    return STATUS_REFUSED;
}

int say_broken(const char *name, uint64_t record, unsigned refusal) {
    const char *limit = refusal == RIME_REFUSED_LOG_LENGTH ? ": a list has at most 4,294,967,295 octets of it" : "";
    warnx("%s: record %llu broken %u: %s%s", name, (unsigned long long)record, refusal, rime_refusal_text(refusal), limit);
    return STATUS_REFUSED;
}

int printed(int status) {
    if (fflush(stdout) == 0 && !ferror(stdout)) return status;
    return say_failed("standard output");
}

const char *duration(double seconds, char words[DURATION]) {
    uint64_t thousandths = (uint64_t)(seconds * 1000 + 0.5), whole = thousandths / 1000;
    if (whole < 60) snprintf(words, DURATION, "%.3f s", seconds);
    else
        snprintf(words, DURATION, "%llu:%02u:%02u.%03u", (unsigned long long)(whole / 3600),
                 (unsigned)(whole / 60 % 60), (unsigned)(whole % 60), (unsigned)(thousandths % 1000));
    return words;
}

const char *plural(uint64_t count) {
    return count == 1 ? "" : "s";
}
