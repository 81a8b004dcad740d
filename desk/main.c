/* rimesatchel: readings in and out of the files that people already have. One command with subcommands. */
#include <argp.h>
#include <err.h>
#include <fcntl.h>
#include <stdio.h>
#include <stdlib.h>
#include <string.h>
#include <unistd.h>

#include "desk.h"

const char *argp_program_version = "rimesatchel " RIME_VERSION;

static const struct {
    const char *name, *called;
    int (*run)(int argc, char **argv);
} commands[] = {
    {"send", "rimesatchel send", desk_send},          {"receive", "rimesatchel receive", desk_receive},
    {"verify", "rimesatchel verify", desk_verify},
    {"list", "rimesatchel list", desk_list},          {"anything", "rimesatchel anything", desk_anything},
    {"sheet", "rimesatchel sheet", desk_sheet},       {"add", "rimesatchel add", desk_add},
    {"salvage", "rimesatchel salvage", desk_salvage}, {"labels", "rimesatchel labels", desk_labels},
    {"picture", "rimesatchel picture", desk_picture}, {"play", "rimesatchel play", desk_play},
    {"record", "rimesatchel record", desk_record},
};

static const char about[] =
    "Readings over ATM cells: a sound file into a log of cells, and a log into sound that any editor opens.\v"
    "Subcommands; each has its own --help:\n"
    "  send IN.wav OUT.log      packs a sound file into a log\n"
    "  receive IN.log OUT.wav   writes a log's sound, and shows what is missing\n"
    "  verify SOUND LOG         whether a log carries a sound file, sample for sample\n"
    "  list FILE..              what the receiver makes of each record\n"
    "  anything FILE..          whether there is any sound on a log at all\n"
    "  sheet FILE..             figures of many logs: cells sound, missing and refused, samples by their marks\n"
    "  add SHEET.csv..          adds sheets of parts into the sheet of all\n"
    "  salvage IN.log OUT.log   a new log of the records that the receiver takes\n"
    "  labels IN.log            the channel status blocks that a log carries\n"
    "  picture IN.log OUT.png   draws the reading over time\n"
    "  play LOG                 plays a log onto the line, or into a capture\n"
    "  record OUT.log           records what comes from the line, or from a capture\n"
    "\n"
    "A name - is standard input or standard output. Ends with 0 where all is well, 1 where the answer is a no, 2 for a "
    "refusal or a broken log, 3 where a file can't be read or written, 64 for a wrong call.";

struct call {
    int argc;
    char **argv;
    int status;
};

static error_t parse(int key, char *word, struct argp_state *state) {
    struct call *call = state->input;
    if (key == ARGP_KEY_NO_ARGS) argp_usage(state);
    if (key != ARGP_KEY_ARG) return key == ARGP_KEY_END ? 0 : ARGP_ERR_UNKNOWN;
    for (size_t at = 0; at < sizeof commands / sizeof *commands; at++) {
        if (strcmp(word, commands[at].name) != 0) continue;
        int first = state->next - 1;
        state->argv[first] = (char *)commands[at].called;
        call->status = commands[at].run(state->argc - first, state->argv + first);
        state->next = state->argc;
        return 0;
    }
    argp_error(state, "there is no subcommand %s", word);
    return 0;
}

/*
 * Where standard input, output or error is closed, the next file that is opened would get its number, and a line for standard
 * error would go into the sound. Something takes its place that can't be used that way, so that using it is a fault as before.
 */
static void fill_standard(void) {
    for (int fd = STDIN_FILENO; fd <= STDERR_FILENO; fd++)
        if (fcntl(fd, F_GETFD) < 0 && open("/dev/null", fd == STDIN_FILENO ? O_WRONLY : O_RDONLY) != fd)
            err(STATUS_FILE, "/dev/null");
}

int main(int argc, char **argv) {
    fill_standard();
    static const struct argp argp = {.parser = parse, .args_doc = "SUBCOMMAND ..", .doc = about};
    struct call call = {0};
    argp_parse(&argp, argc, argv, ARGP_IN_ORDER, NULL, &call);
    return call.status;
}
