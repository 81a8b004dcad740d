/*
 * What the subcommands of the desk tool share. Every cell is made and taken by the proved calls of rimesatchel.h; what
 * is here opens files, keeps a buffer, and says in words what happened.
 */
#ifndef DESK_H
#define DESK_H

#include <signal.h>
#include <stdbool.h>
#include <stddef.h>
#include <stdint.h>

#include "rimesatchel.h"

/* What a subcommand ends with. Of several files the largest counts. */
enum {
    STATUS_WELL = 0,    /* all well */
    STATUS_NO = 1,      /* the answer is a no */
    STATUS_REFUSED = 2, /* a refusal, or a log that is broken */
    STATUS_FILE = 3     /* a file can't be read or written */
};

/* The most entries that one call of rime_receive writes: fourteen missing cells and its own. */
enum { DESK_ROOM = (RIME_MOST_MISSING + 1) * RIME_MOST_SLOTS };

/* Each takes its own arguments, its name first, and returns a status. */
int desk_send(int argc, char **argv);
int desk_receive(int argc, char **argv);
int desk_verify(int argc, char **argv);
int desk_list(int argc, char **argv);
int desk_anything(int argc, char **argv);
int desk_sheet(int argc, char **argv);
int desk_add(int argc, char **argv);
int desk_salvage(int argc, char **argv);
int desk_labels(int argc, char **argv);
int desk_picture(int argc, char **argv);
int desk_play(int argc, char **argv);
int desk_record(int argc, char **argv);

/* say.c: a line on standard error, after the program's name and a file's. */
int say_failed(const char *name);                                      /* what errno says; returns STATUS_FILE */
int say_unfit(const char *name, const char *why);                      /* returns STATUS_FILE */
int say_refused(const char *name, const char *what, unsigned refusal); /* the number and its words; STATUS_REFUSED */
int say_broken(const char *name, uint64_t record, unsigned refusal);   /* the same, of a log that is broken there */
const char *shown(const char *name, bool is_output); /* the name as it is shown: that of standard input or output for `-` */
int printed(int status); /* the status, or STATUS_FILE where standard output can't be written; that is said */
enum { DURATION = 48 };
const char *duration(double seconds, char words[DURATION]); /* "2.500 s", or "1:02:03.500" from a minute on */
const char *plural(uint64_t count);                         /* "s", or nothing of one */

/* format.c: what a subframe octet says. Whether there is such a format is for the proved opening to say. */
struct format {
    unsigned sample_bits;
    unsigned slots;
    bool ancillary;
    bool overhead;
};
struct format format_of(uint32_t octet);

/* progress.c: how far the work is, on a terminal, where it takes longer than a second. */
void progress_begin(const char *name, uint64_t total, bool quiet); /* total 0: not known */
void progress_at(uint64_t done);
void progress_clear(void); /* for a line of text; the bar is drawn again after it */
void progress_end(void);
void progress_within(const char *name, uint64_t total); /* a bar in the place of the other one, up to progress_without */
void progress_without(void);

/* limits.c: settings that are refused, with the limit that they pass; and a log whose header is. STATUS_REFUSED. */
struct settings {
    unsigned format, channels, order, number, second;
};
int say_settings(const char *name, const char *what, unsigned refusal, struct settings settings);
int say_header(const char *name, const uint8_t *octets, size_t count, unsigned refusal);

/*
 * output.c: a file that is written under a temporary name beside its own, and gets its own when it is whole. An output
 * that is neither kept nor dropped is dropped when the program ends, by a signal too. Links are followed. What isn't a regular
 * file, `-` for standard output among it, is written into.
 */
struct output {
    const char *name;
    char *target, *temporary; /* NULL where nothing is open, or it is written into */
    int fd;
    int error; /* errno of the first write that failed, 0 where none did */
    bool force, open;
    bool into, begun;        /* it is written into; something was written */
    bool swapped, replaced;  /* the temporary name has the file that was there; or that file is gone */
};
int output_open(struct output *output, const char *name, bool force); /* a status; says what is wrong */
bool output_write(struct output *output, const void *octets, size_t count);
bool output_done(struct output *output); /* nothing more is written: whether all of it was, and reached the disk */
int output_keep(struct output *output);  /* a status; says what is wrong */
int outputs_keep(struct output *const *outputs, size_t count); /* all of them, or none. Those that aren't open are left out */
void output_drop(struct output *output);
sigset_t output_undisturbed(void); /* from here on no signal ends the program, up to output_disturbed */
void output_disturbed(sigset_t before);

/*
 * whole.c: whether a file was read whole. Another program may cut it or add to it meanwhile, so that its length is taken before
 * and after.
 */
struct whole {
    int fd;
    bool known; /* it is a regular file: its length says something */
    uint64_t start, length; /* where reading began, and the octets from there on */
};
void whole_begin(struct whole *whole, int fd);
/* These octets were read, up to the end that was met or less. False where the file became shorter. Says so, or that it grew. */
bool whole_end(struct whole *whole, const char *name, uint64_t octets, bool to_the_end);

/*
 * spool.c: what comes from a pipe, kept in a file without a name, where TMPDIR says. A new descriptor at its start; -1 where that
 * failed, and that is said.
 */
int spool(int from, const char *name);
bool spool_first(int *fd, const char *name, struct whole *whole); /* the same in its place, where it isn't a regular file */

/* Entries of whole cells. */
struct entries {
    uint64_t samples[DESK_ROOM];
    uint8_t ancillary[DESK_ROOM], marks[DESK_ROOM];
};

enum step {
    STEP_SOUND,   /* a cell was taken: samples, ancillary, marks, report, given */
    STEP_REFUSED, /* the receiver refused it: refusal */
    STEP_END,     /* the log is over */
    STEP_BROKEN,  /* a framing fault in record `record`: refusal */
    STEP_FAILED   /* the file can't be read; that was said */
};

/* slips.c: what second numbers tell of the cells of a log. */
struct slips {
    bool off; /* nobody asks, or the format has no overhead */
    uint8_t watch[RIME_SLIP];
    unsigned before, perhaps; /* by the cell taken last: cells missing before the one taken before it; perhaps before itself */
    uint64_t cells, places;   /* told of so far */

    /* the cell that is held, and what came behind it */
    enum { SLIPS_READS, SLIPS_HOLDS, SLIPS_DECIDED, SLIPS_NEXT } stage;
    unsigned silence; /* cells of it that are still to be handed out */
    size_t given, next_given;
    enum step next;
};

/*
 * reading.c: a log, read a buffer at a time, and what the receiver makes of each of its records. `-` is standard input.
 */
struct reading {
    const char *name;
    int fd;
    struct whole whole;
    uint8_t *buffer;
    size_t held, place;
    bool ended;
    uint64_t octets; /* read so far */
    uint64_t limit;  /* the most octets of a log, by refusal 13; 0 where there is no limit */

    uint32_t header[RIME_HEADER];
    struct format format;
    unsigned channels, times, entries; /* C, T, and C * T */
    uint8_t state[RIME_RECEIVER_STATE];

    /* of the last record */
    const uint8_t *cell;
    bool indication;
    struct entries rooms[2], *now, *held_back; /* now: what the receiver wrote */
    uint8_t report[RIME_REPORT];
    unsigned refusal;

    /* of the last step: what was handed out */
    const uint64_t *samples;
    const uint8_t *ancillary, *marks;
    size_t given; /* how many entries */
    struct slips slips;

    /* of all records so far */
    uint64_t record; /* records read */
    uint64_t sound, missing, refused, gaps;
    uint64_t refused_by[256];
    uint64_t refused_last; /* refused since the last sound cell */
    uint64_t time;         /* sample times handed out before this record */
};

int reading_open(struct reading *reading, const char *name, bool quiet);  /* a status; says what is wrong */
int reading_header(struct reading *reading);                              /* the refusal; -1 where reading failed */
int reading_start(struct reading *reading);                               /* behind reading_open: the header; a status, so too */
int reading_begin(struct reading *reading, const char *name, bool quiet); /* both; so too */
int reading_twice(struct reading *reading); /* behind reading_open: keeps what comes from a pipe, and reads the header; so too */
int reading_again(struct reading *reading); /* after that: from the start of the log; so too */
enum step reading_step(struct reading *reading);
void reading_close(struct reading *reading);
int reading_broken(const struct reading *reading); /* says where the log is broken; returns STATUS_REFUSED */

#endif
