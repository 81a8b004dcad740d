/* rimesatchel list: what the receiver makes of each record, in the lines of the program linelist. */
#include <argp.h>
#include <stdio.h>
#include <string.h>
#include <unistd.h>

#include "json.h"
#include "options.h"
#include "slips.h"
#include "watched.h"

static const uint64_t most = 0xFFFFFFFF; /* octets of a log that is listed */

struct list {
    struct names names;
    bool strict, quiet, json, slips;
};

static const struct argp_option options[] = {
    {"strict", 's', NULL, 0, "end with status 1 where anything is missing or refused", 0},
    {"slips", OPTION_SLIPS, NULL, 0, "a line `k slip n` too: at least n cells more are missing before record k, by second numbers", 0},
    {"json", 'j', NULL, 0, "print a line of JSON for each record and one for the end of a log", 0},
    {"quiet", 'q', NULL, 0, "no bar", 0},
    {0},
};

static error_t parse(int key, char *word, struct argp_state *state) {
    (void)word;
    struct list *list = state->input;
    switch (key) {
    case 's': list->strict = true; break;
    case OPTION_SLIPS: list->slips = true; break;
    case 'j': list->json = true; break;
    case 'q': list->quiet = true; break;
    default: return option_names(state, key, &list->names);
    }
    return 0;
}

/* A line of JSON for the record that was read. */
static void tell_record(const struct reading *reading, uint64_t record, enum step step) {
    static const char *const answers[] = {[STEP_SOUND] = "sound", [STEP_REFUSED] = "refused", [STEP_BROKEN] = "broken"};
    if (step == STEP_END || step == STEP_FAILED) return;
    doc_line();
    doc_number("record", record);
    doc_text("answer", answers[step]);
    if (step == STEP_SOUND) {
        doc_number("missing", reading->report[RIME_REPORT_MISSING]);
        doc_number("number", reading->report[RIME_REPORT_NUMBER]);
    } else doc_number("refusal", reading->refusal);
    doc_end();
}

/* The line of a log's end, whatever became of it. */
static void tell_end_of(const struct reading *reading, const char *name, int refusal, int status) {
    const uint32_t *header = reading->header;
    doc_line();
    doc_text("log", name);
    if (refusal == RIME_DONE) {
        doc_number("format", header[RIME_HEADER_FORMAT]);
        doc_number("channels", header[RIME_HEADER_CHANNELS]);
        doc_number("order", header[RIME_HEADER_ORDER]);
        doc_number("sound", reading->sound);
        doc_number("missing", reading->missing);
        doc_number("refused", reading->refused);
    } else if (refusal > 0) doc_number("refusal", (uint64_t)refusal);
    doc_number("status", (uint64_t)status);
    doc_end();
}

/* The status of a log without a fault. */
static int judged(const struct list *list, uint64_t flaws, const struct slips *slips) {
    return list->strict && (flaws > 0 || slips_flawed(slips)) ? STATUS_NO : STATUS_WELL;
}

static enum step tell_records(struct reading *reading, const struct list *list) {
    enum step step;
    uint64_t last = 0;
    do {
        uint64_t record = reading->record;
        step = reading_step(reading);
        tell_record(reading, record, step);
        if (step != STEP_SOUND || !reading->format.overhead) continue;
        slips_watch(&reading->slips, reading->report);
        if (list->slips && reading->slips.before > 0) {
            doc_line();
            doc_number("record", last);
            doc_number("slip", reading->slips.before);
            doc_end();
        }
        last = record;
    } while (step == STEP_SOUND || step == STEP_REFUSED);
    progress_end();
    return step;
}

/* The list in JSON, a line for each record. */
static int tell_log(const char *name, const struct list *list) {
    static struct reading reading;
    int status = reading_open(&reading, name, list->quiet || isatty(STDOUT_FILENO));
    if (status != STATUS_WELL) {
        tell_end_of(&reading, name, -1, status);
        return status;
    }
    reading.limit = most;
    int refusal = reading_header(&reading);
    if (refusal == RIME_DONE) {
        enum step last = tell_records(&reading, list);
        if (last == STEP_FAILED) status = STATUS_FILE;
        else if (last == STEP_BROKEN) status = reading_broken(&reading);
        else status = judged(list, reading.missing + reading.refused, &reading.slips);
    } else if (refusal < 0) status = STATUS_FILE;
    else status = say_header(reading.name, reading.buffer, reading.held, (unsigned)refusal);
    reading_close(&reading);
    tell_end_of(&reading, name, refusal, status);
    return status;
}

/* Behind a line of text. */
static const uint8_t *past_line(const uint8_t *text, const uint8_t *end) {
    const uint8_t *found = memchr(text, '\n', (size_t)(end - text));
    return found == NULL ? end : found + 1;
}

/* Prints the text of a piece, and behind the line of each record what it tells. */
static void print_text(const uint8_t *text, uint64_t written, struct watched *watched, const struct list *list) {
    const uint8_t *end = text + written, *at = text;
    if (written > 0 && *at == 'f') at = past_line(at, end); /* the format's line */
    for (uint64_t before; watched_next(watched, &before);) {
        at = past_line(at, end);
        if (!list->slips || watched->slips.before == 0) continue;
        fwrite(text, 1, (size_t)(at - text), stdout);
        printf("%llu slip %u\n", (unsigned long long)before, watched->slips.before);
        text = at;
    }
    fwrite(text, 1, (size_t)(end - text), stdout);
}

/* Prints the list as the proved calls write it. A fault is printed once it is sure that the file wasn't cut. */
static int print_list(struct pieces *pieces, const struct list *list) {
    static uint8_t text[PIECE_ROOM(RIME_TEXT_ROOM, RIME_TEXT_RECORD)];
    static struct watched watched;
    uint64_t state[RIME_LIST_STATE], written;
    memset(&watched, 0, sizeof watched);
    watched.slips.off = !list->slips && !list->strict;
    rime_list_start(state, pieces->held);
    while (state[RIME_PIECES_STAGE] < 2 && pieces_next(pieces)) {
        rime_list_take(state, pieces->held, pieces->piece, pieces->count, text, sizeof text, &written);
        watched_take(&watched, pieces->piece, pieces->count);
        if (state[RIME_PIECES_STAGE] < 2) print_text(text, written, &watched, list);
    }
    int status = pieces_whole(pieces);
    if (status != STATUS_WELL) return status;
    if (state[RIME_PIECES_STAGE] < 2) rime_list_end(state, pieces->held, text, sizeof text, &written);
    print_text(text, written, &watched, list);
    progress_end();
    status = pieces_say(pieces, pieces_fault(pieces, state));
    return status == STATUS_WELL ? judged(list, state[RIME_LIST_MISSING] + state[RIME_LIST_REFUSED], &watched.slips) : status;
}

static int list_log(const char *name, const struct list *list) {
    static struct pieces pieces;
    int status = pieces_open(&pieces, name);
    if (status != STATUS_WELL) return status;
    progress_begin(pieces.name, pieces.whole.length, list->quiet || isatty(STDOUT_FILENO));
    status = print_list(&pieces, list);
    progress_end();
    pieces_close(&pieces);
    return status;
}

int desk_list(int argc, char **argv) {
    struct list list = {0};
    static const struct argp argp = {
        .options = options,
        .parser = parse,
        .args_doc = "FILE..",
        .doc = "Lists logs, a line for each record. - is standard input.",
    };
    argp_parse(&argp, argc, argv, 0, NULL, &list);
    int worst = STATUS_WELL;
    for (int at = 0; at < list.names.count; at++) {
        if (list.names.count > 1 && !list.json) printf("%s:\n", list.names.words[at]);
        const char *name = list.names.words[at];
        int status = list.json ? tell_log(name, &list) : list_log(name, &list);
        if (status > worst) worst = status;
    }
    return printed(worst);
}
