/* Sheets that were printed, read back. */
#include <err.h>
#include <errno.h>
#include <stdio.h>
#include <stdlib.h>
#include <string.h>

#include "figures.h"

struct lines {
    FILE *from;
    char *text; /* a line, or several where a name in quotes has line breaks */
    size_t length, room;
    size_t number, next; /* of its first line, counted from 1, and of the line after it */
    uint64_t octets;     /* read so far */
};

static void put(struct lines *lines, char octet) {
    if (lines->length == lines->room) {
        lines->room = lines->room * 2 + 256;
        lines->text = realloc(lines->text, lines->room);
        if (lines->text == NULL) err(STATUS_FILE, "a sheet");
    }
    lines->text[lines->length++] = octet;
}

/* False where the file is over. What has an octet of zero in it ends there, and so is no line of a sheet. */
static bool next_line(struct lines *lines) {
    bool quoted = false;
    int octet;
    lines->length = 0;
    lines->number = ++lines->next;
    while ((octet = getc_unlocked(lines->from)) != EOF) {
        lines->octets++;
        if (octet == '\n' && !quoted) break;
        if (octet == '"') quoted = !quoted;
        lines->next += octet == '\n';
        put(lines, (char)octet);
    }
    if (octet == EOF && lines->length == 0) return false;
    if (lines->length > 0 && lines->text[lines->length - 1] == '\r') lines->length--;
    put(lines, '\0');
    return true;
}

static bool is_digit(char letter) {
    return letter >= '0' && letter <= '9';
}

/* What is left of a line after a number, NULL where none stands there. */
static const char *past_number(const char *line, uint64_t *number) {
    char *end;
    errno = 0;
    *number = is_digit(*line) ? strtoull(line, &end, 10) : 0;
    return is_digit(*line) && errno == 0 ? end : NULL;
}

static const char *past_word(const char *line, const char *word) {
    size_t length = strlen(word);
    return line != NULL && strncmp(line, word, length) == 0 ? line + length : NULL;
}

/* What is left of a line after a state. */
static const char *past_state(const char *line, char state[STATE]) {
    const char *past = past_word(line, "unreadable"), *fault;
    uint64_t number;
    if ((fault = past_word(line, "refused ")) != NULL) past = past_number(fault, &number);
    if ((fault = past_word(line, "broken ")) != NULL) {
        past = past_word(past_number(fault, &number), " at ");
        if (past != NULL) past = past_number(past, &number);
    }
    if (*line == ',') past = line;
    if (past == NULL || *past != ',' || past - line >= STATE) return NULL;
    memcpy(state, line, (size_t)(past - line));
    state[past - line] = '\0';
    return past;
}

/* The last field of a line, in its place, without the quotes around it. False where it isn't one. */
static bool unquote(char *field) {
    if (*field != '"') return strpbrk(field, ",\"") == NULL;
    char *to = field;
    for (const char *from = field + 1; *from != '\0'; from++) {
        if (*from == '"' && *++from != '"') {
            *to = '\0';
            return *from == '\0';
        }
        *to++ = *from;
    }
    return false;
}

/* A row of the line that stands there, after its first word, which is given. False where it isn't such a line. */
static bool read_row(struct lines *lines, const char *word, bool plain, struct row *row) {
    static char nothing[] = "";
    const char *line = past_word(lines->text, word);
    *row = (struct row){.file = nothing};
    for (unsigned at = 0; at < FIGURES && line != NULL; at++)
        line = *line == ',' ? past_number(line + 1, &row->figures.of[at]) : NULL;
    if (line == NULL || row->figures.of[PER_MILLION] != per_million(&row->figures)) return false;
    if (plain) return *line == '\0';
    if (*line != ',') return false;
    line = past_state(line + 1, row->state);
    if (line == NULL) return false;
    row->file = lines->text + (line + 1 - lines->text);
    return unquote(row->file);
}

/* The rest of a sheet after its line of names: rows from 0 on, then `all`, which is their sum. False where it isn't so. */
static bool read_rows(struct sheet *sheet, struct lines *lines, bool plain) {
    struct figures sum = {0};
    struct row row;
    for (size_t at = 0; next_line(lines); at++) {
        char number[24];
        snprintf(number, sizeof number, "%zu", at);
        if (strncmp(lines->text, "all,", 4) == 0)
            return read_row(lines, "all", plain, &row) && memcmp(&sum, &row.figures, sizeof sum) == 0 &&
                   row.state[0] == '\0' && row.file[0] == '\0';
        if (!read_row(lines, number, plain, &row) || !figures_add(&sum, &row.figures)) return false;
        sheet_take(sheet, &row);
    }
    return false;
}

static int read_sheets(struct sheet *sheet, struct lines *lines, const char *name) {
    uint64_t refusal;
    bool whole = false; /* the last line is that of all */
    while (next_line(lines)) {
        const char *refused = past_word(lines->text, "sheet refused ");
        if (refused != NULL && past_number(refused, &refusal) != NULL && refusal < 256)
            return say_refused(name, "a sheet is", (unsigned)refusal);
        const char *more = past_word(lines->text, plain_names);
        bool plain = more != NULL && *more == '\0';
        whole = (plain || (more != NULL && strcmp(more, more_names) == 0)) && read_rows(sheet, lines, plain);
        if (!whole) break;
    }
    if (ferror(lines->from)) return say_failed(name);
    if (whole) return STATUS_WELL;
    warnx("%s: line %zu isn't that of a sheet", name, lines->number);
    return STATUS_FILE;
}

int sheet_read(struct sheet *sheet, const char *name) {
    bool standard = strcmp(name, "-") == 0;
    struct lines lines = {.from = standard ? stdin : fopen(name, "re")};
    name = shown(name, false);
    if (lines.from == NULL) return say_failed(name);
    struct whole length;
    whole_begin(&length, fileno(lines.from));
    int status = read_sheets(sheet, &lines, name);
    if (status == STATUS_WELL && !whole_end(&length, name, lines.octets, true)) status = STATUS_FILE;
    if (!standard) fclose(lines.from);
    free(lines.text);
    return status;
}
