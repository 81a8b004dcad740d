/* rimesatchel sheet: figures of many logs. rimesatchel add: sheets of parts into the sheet of all. */
#include <argp.h>
#include <err.h>
#include <stdio.h>

#include "figures.h"
#include "json.h"
#include "options.h"
#include "pieces.h"

struct call {
    struct names names;
    bool plain, quiet, json;
    bool counted; /* --logs is given */
    uint64_t logs;
};

static const struct argp_option sheet_options[] = {
    {"plain", 'p', NULL, 0, "the columns of the program sheet alone, and its limits: 4,096 logs, totals up to 4,294,967,295", 0},
    {"json", 'j', NULL, 0, "print a document of JSON", 0},
    {"quiet", 'q', NULL, 0, "no bar, and no word on logs that are refused or broken", 0},
    {0},
};

static const struct argp_option add_options[] = {
    {"logs", 'n', "NUMBER", 0, "end with status 2 where the sheets have another number of rows", 0},
    {0},
};

static error_t parse(int key, char *word, struct argp_state *state) {
    struct call *call = state->input;
    switch (key) {
    case 'n':
        call->counted = true;
        call->logs = option_number(state, "logs", word, 10);
        break;
    case 'j': call->json = true; break;
    case 'p': call->plain = true; break;
    case 'q': call->quiet = true; break;
    case ARGP_KEY_SUCCESS:
        if (call->plain && call->json) argp_error(state, "--plain is a table, and --json isn't");
        break;
    default: return option_names(state, key, &call->names);
    }
    return 0;
}

static void put_state(struct row *row, struct fault fault) {
    if (fault.refusal == RIME_DONE) return;
    if (fault.header) snprintf(row->state, STATE, "refused %u", fault.refusal);
    else snprintf(row->state, STATE, "broken %u at %llu", fault.refusal, (unsigned long long)fault.record);
}

/* What the proved calls answered for a log, and how it ends: figures and state. A status. */
static int take_figures(struct row *row, const struct pieces *pieces, unsigned refusal, struct fault fault, bool quiet) {
    if (refusal != RIME_DONE) {
        put_state(row, (struct fault){.refusal = refusal, .header = true});
        return quiet ? STATUS_REFUSED : say_refused(pieces->name, "its sheet is", refusal);
    }
    put_state(row, fault);
    if (!quiet) return pieces_say(pieces, fault);
    return fault.refusal == RIME_DONE ? STATUS_WELL : STATUS_REFUSED;
}

/* The figures of a log, up to its end or its fault, and its state. A refused header counts nothing. A status. */
static int read_log(struct sheet *sheet, struct row *row, bool quiet) {
    static struct pieces pieces;
    int status = pieces_open(&pieces, row->file);
    if (status != STATUS_WELL) return status;
    uint64_t state[RIME_FIGURES_STATE];
    uint32_t figures[FIGURES];
    rime_figures_start(state, pieces.held);
    progress_within(pieces.name, pieces.whole.length);
    while (state[RIME_PIECES_STAGE] < 2 && pieces_next(&pieces))
        rime_figures_take(state, pieces.held, pieces.piece, pieces.count);
    progress_without();
    status = pieces_whole(&pieces);
    if (status == STATUS_WELL) {
        unsigned refusal = rime_figures_end(state, figures);
        for (unsigned at = 0; at < FIGURES; at++) row->figures.of[at] = figures[at];
        if (sheet->plain) sheet->refusal = refusal; /* of the sheet itself, and said of it */
        bool silent = quiet || sheet->refusal != RIME_DONE;
        status = take_figures(row, &pieces, refusal, pieces_fault(&pieces, state), silent);
    }
    pieces_close(&pieces);
    return status;
}

static int take_log(struct sheet *sheet, char *name, bool quiet) {
    struct row row = {.file = name};
    int status = read_log(sheet, &row, quiet);
    if (status == STATUS_FILE) snprintf(row.state, STATE, "unreadable");
    sheet_take(sheet, &row);
    return status;
}

int desk_sheet(int argc, char **argv) {
    struct call call = {0};
    static struct sheet sheet;
    static const struct argp argp = {
        .options = sheet_options,
        .parser = parse,
        .args_doc = "FILE..",
        .doc = "Prints a sheet of figures, comma separated: a line for each log, with its state where not all is well and its "
               "name, and one of all together. - is standard input.",
    };
    argp_parse(&argp, argc, argv, 0, NULL, &call);
    int worst = STATUS_WELL;
    sheet.plain = call.plain;
    if (call.plain && call.names.count > MOST_LOGS) sheet.refusal = RIME_REFUSED_LOGS;
    progress_begin("logs", (uint64_t)call.names.count, call.quiet);
    for (int at = 0; at < call.names.count && sheet.refusal == RIME_DONE; at++) {
        int status = take_log(&sheet, call.names.words[at], call.quiet);
        if (call.plain && status == STATUS_FILE) return status; /* its columns have no place for a state */
        if (status > worst) worst = status;
        progress_at((uint64_t)at + 1);
    }
    progress_end();
    sheet.json = call.json;
    if (call.json) doc_object(NULL);
    int status = sheet_print(&sheet);
    if (status < worst) status = worst;
    if (call.json) {
        doc_number("status", (uint64_t)status);
        doc_end();
    }
    return printed(status);
}

/* What all the rows say together: a status, and says why it isn't well. */
static int judge(const struct sheet *sheet, const struct call *call) {
    unsigned long long logs = sheet->logs, stated = sheet->stated;
    if (stated > 0)
        warnx("%llu of %llu row%s %s a state: not all is well with the logs", stated, logs, plural(logs),
              stated == 1 ? "has" : "have");
    bool wrong = call->counted && logs != call->logs;
    if (wrong) warnx("%llu row%s came, and --logs says %llu", logs, plural(logs), (unsigned long long)call->logs);
    return stated > 0 || wrong ? STATUS_REFUSED : STATUS_WELL;
}

int desk_add(int argc, char **argv) {
    struct call call = {0};
    static struct sheet sheet;
    static const struct argp argp = {
        .options = add_options,
        .parser = parse,
        .args_doc = "SHEET.csv..",
        .doc = "Adds sheets of parts into the sheet of all: their rows in a row, the figures of all together, and missing per "
               "million worked out anew. Ends with 2 where a row has a state. - is standard input.",
    };
    argp_parse(&argp, argc, argv, 0, NULL, &call);
    for (int at = 0; at < call.names.count; at++) {
        int status = sheet_read(&sheet, call.names.words[at]);
        if (status != STATUS_WELL) return status;
    }
    int status = sheet_print(&sheet), judged = judge(&sheet, &call);
    return printed(status > judged ? status : judged);
}
