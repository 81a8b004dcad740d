/* rimesatchel anything: whether a log has a sample marked sound that isn't zero, and in which record the first is. */
#include <argp.h>
#include <stdio.h>

#include "json.h"
#include "options.h"
#include "pieces.h"

struct anything {
    struct names names;
    bool quiet, json;
};

static const struct argp_option options[] = {
    {"json", 'j', NULL, 0, "print a document of JSON", 0},
    {"quiet", 'q', NULL, 0, "no bar", 0},
    {0},
};

static error_t parse(int key, char *word, struct argp_state *state) {
    (void)word;
    struct anything *anything = state->input;
    switch (key) {
    case 'j': anything->json = true; break;
    case 'q': anything->quiet = true; break;
    default: return option_names(state, key, &anything->names);
    }
    return 0;
}

/* The answer of a log, in JSON. */
static void tell_answer(unsigned refusal, const uint64_t answer[RIME_ANSWER], struct fault fault) {
    doc_text("answer", refusal != RIME_DONE ? "refused" : answer[0] == 1 ? "yes" : "no");
    if (refusal != RIME_DONE) doc_number("refusal", refusal);
    else doc_number(answer[0] == 1 ? "record" : "records", answer[1]);
    if (answer[0] == 0 && fault.refusal != RIME_DONE && !fault.header) doc_broken(fault.record, fault.refusal);
}

static void print_answer(const char *name, unsigned refusal, const uint64_t answer[RIME_ANSWER]) {
    if (name != NULL) printf("%s: ", name);
    if (refusal != RIME_DONE) printf("log refused %u\n", refusal);
    else printf("%s %llu\n", answer[0] == 1 ? "yes" : "no", (unsigned long long)answer[1]);
}

/* The answer of the proved calls, for as much of the log as it needs. A refusal, or -1 where the file is unfit, which is said. */
static int ask(struct pieces *pieces, uint64_t *state, uint64_t answer[RIME_ANSWER]) {
    uint64_t more = 1;
    rime_anything_start(state, pieces->held);
    progress_within(pieces->name, pieces->whole.length);
    while (more == 1 && pieces_next(pieces))
        rime_anything_take(state, pieces->held, pieces->piece, pieces->count, &more);
    progress_without();
    if (pieces_whole(pieces) != STATUS_WELL) return -1;
    return rime_anything_end(state, pieces->held, answer);
}

static int of_log(const char *name, bool several, bool json) {
    static struct pieces pieces;
    int status = pieces_open(&pieces, name);
    if (status != STATUS_WELL) return status;
    uint64_t state[RIME_ANYTHING_STATE], answer[RIME_ANSWER]; /* yes or no, and a record or how many */
    int refusal = ask(&pieces, state, answer);
    if (refusal < 0) {
        pieces_close(&pieces);
        return STATUS_FILE;
    }
    struct fault fault = answer[0] == 0 ? pieces_fault(&pieces, state) : (struct fault){0};
    if (json) tell_answer((unsigned)refusal, answer, fault);
    else print_answer(several ? name : NULL, (unsigned)refusal, answer);
    if (answer[0] == 0) {
        status = pieces_say(&pieces, fault);
        if (status == STATUS_WELL) status = STATUS_NO;
    }
    pieces_close(&pieces);
    return status;
}

/* A log of several, in JSON where that is asked for. */
static int answer_of(const struct anything *anything, const char *name) {
    if (!anything->json) return of_log(name, anything->names.count > 1, false);
    doc_object(NULL);
    doc_text("log", name);
    int status = of_log(name, false, true);
    if (status == STATUS_FILE) doc_text("answer", "unreadable");
    doc_number("status", (uint64_t)status);
    doc_end();
    return status;
}

int desk_anything(int argc, char **argv) {
    struct anything anything = {0};
    static const struct argp argp = {
        .options = options,
        .parser = parse,
        .args_doc = "FILE..",
        .doc = "Answers whether a log has a sample, marked sound, that isn't zero: yes and the first such record, or no and "
               "how many whole records were read. - is standard input.",
    };
    argp_parse(&argp, argc, argv, 0, NULL, &anything);
    int worst = STATUS_WELL, count = anything.names.count;
    progress_begin("logs", (uint64_t)count, anything.quiet);
    if (anything.json) {
        doc_object(NULL);
        doc_array("logs");
    }
    for (int at = 0; at < count; at++) {
        int status = answer_of(&anything, anything.names.words[at]);
        if (status > worst) worst = status;
        progress_at((uint64_t)at + 1);
    }
    progress_end();
    if (anything.json) {
        doc_end();
        doc_number("status", (uint64_t)worst);
        doc_end();
    }
    return printed(worst);
}
