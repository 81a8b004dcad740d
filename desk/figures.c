/* The sheet of a year: rows that are taken, added up and printed. */
#include "figures.h"

#include <err.h>
#include <stdio.h>
#include <stdlib.h>
#include <string.h>

#include "json.h"

const char plain_names[] =
    "log,sound,missing,refused 8,refused 9,refused 15,refused 20,marked 0,marked 1,marked 2,missing per million";
const char more_names[] = ",state,file";

static const uint64_t most_of_plain = 0xFFFFFFFF; /* of each total, by refusal 19 */

uint64_t per_million(const struct figures *figures) {
    __extension__ typedef unsigned __int128 wide;
    wide missing = figures->of[MISSING_CELLS], cells = missing + figures->of[SOUND_CELLS];
    return cells == 0 ? 0 : (uint64_t)(missing * 1000000 / cells);
}

bool figures_add(struct figures *sum, const struct figures *figures) {
    bool fits = true;
    for (unsigned at = 0; at < SUMS; at++)
        if (__builtin_add_overflow(sum->of[at], figures->of[at], &sum->of[at])) fits = false;
    sum->of[PER_MILLION] = per_million(sum);
    return fits;
}

static struct row *next_row(struct sheet *sheet) {
    if (sheet->logs == sheet->room) {
        sheet->room = sheet->room * 2 + 64;
        sheet->rows = reallocarray(sheet->rows, sheet->room, sizeof *sheet->rows);
        if (sheet->rows == NULL) err(STATUS_FILE, "the logs");
    }
    return &sheet->rows[sheet->logs++];
}

void sheet_take(struct sheet *sheet, const struct row *row) {
    struct row *mine = next_row(sheet);
    *mine = *row;
    mine->file = strdup(row->file);
    if (mine->file == NULL) err(STATUS_FILE, "the logs");
    mine->figures.of[PER_MILLION] = per_million(&row->figures);
    sheet->stated += row->state[0] != '\0';
    if (!figures_add(&sheet->all, &row->figures)) sheet->overflow = true;
    for (unsigned at = 0; at < SUMS && sheet->plain; at++)
        if (sheet->all.of[at] > most_of_plain) sheet->refusal = RIME_REFUSED_TOTAL;
}

static void print_figures(const struct figures *figures) {
    for (unsigned at = 0; at < FIGURES; at++) printf(",%llu", (unsigned long long)figures->of[at]);
}

/* A name as a field of a table: in quotes, so that it may have commas, quotes and line breaks. */
static void print_name(const char *name) {
    putchar('"');
    for (; *name != '\0'; name++) {
        if (*name == '"') putchar('"');
        putchar(*name);
    }
    putchar('"');
}

static void print_rows(const struct sheet *sheet) {
    printf("%s%s\n", plain_names, sheet->plain ? "" : more_names);
    for (size_t at = 0; at < sheet->logs; at++) {
        const struct row *row = &sheet->rows[at];
        printf("%zu", at);
        print_figures(&row->figures);
        if (!sheet->plain) {
            printf(",%s,", row->state);
            print_name(row->file);
        }
        putchar('\n');
    }
    fputs("all", stdout);
    print_figures(&sheet->all);
    puts(sheet->plain ? "" : ",,");
}

static void tell_figures(const struct figures *figures) {
    static const char *const keys[FIGURES] = {"sound",    "missing",  "refused_8", "refused_9", "refused_15",
                                              "refused_20", "marked_0", "marked_1",  "marked_2",  "missing_per_million"};
    for (unsigned at = 0; at < FIGURES; at++) doc_number(keys[at], figures->of[at]);
}

void sheet_tell(const struct sheet *sheet) {
    doc_array("logs");
    for (size_t at = 0; at < sheet->logs; at++) {
        doc_object(NULL);
        doc_text("log", sheet->rows[at].file);
        tell_figures(&sheet->rows[at].figures);
        doc_text("state", sheet->rows[at].state);
        doc_end();
    }
    doc_end();
    doc_object("all");
    tell_figures(&sheet->all);
    doc_end();
}

int sheet_print(struct sheet *sheet) {
    if (sheet->refusal != RIME_DONE) {
        printf("sheet refused %u\n", sheet->refusal);
        return say_refused("the logs", "the sheet is", sheet->refusal);
    }
    if (sheet->overflow) {
        warnx("the logs: a total passes 18,446,744,073,709,551,615, and no sheet is printed");
        return STATUS_REFUSED;
    }
    if (sheet->json) sheet_tell(sheet);
    else print_rows(sheet);
    return STATUS_WELL;
}
