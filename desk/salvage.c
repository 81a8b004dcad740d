/* rimesatchel salvage: a new log of the records that the receiver takes, and the list of what was left out. */
#include <argp.h>
#include <stdio.h>

#include "options.h"
#include "pieces.h"
#include "place.h"

struct salvage {
    const char *in_name, *out_name;
    bool force, quiet;

    struct pieces pieces;
    struct output out;
    bool begun; /* something is in it */
    uint64_t state[RIME_SALVAGE_STATE];
    uint8_t log[PIECE_ROOM(RIME_OUT_ROOM, RIME_OUT_RECORD)];
    uint8_t notes[PIECE_ROOM(RIME_NOTES_ROOM, RIME_NOTES_RECORD)];
};

static const struct argp_option options[] = {
    {"force", 'F', NULL, 0, "write over OUT.log if it is there", 0},
    {"quiet", 'q', NULL, 0, "no bar and no list", 0},
    {0},
};

static error_t parse(int key, char *word, struct argp_state *state) {
    struct salvage *salvage = state->input;
    switch (key) {
    case 'F': salvage->force = true; break;
    case 'q': salvage->quiet = true; break;
    default: return option_pair(state, key, word, &salvage->in_name, &salvage->out_name);
    }
    return 0;
}

/* The lines that the proved calls wrote. */
static void say_notes(const struct salvage *salvage, uint64_t octets) {
    if (salvage->quiet || octets == 0) return;
    progress_clear();
    fwrite(salvage->notes, 1, octets, stderr);
}

/* Takes the piece that was read. The new log begins with the first octets of it: a log whose header is refused has none. */
static int take_piece(struct salvage *salvage) {
    struct pieces *pieces = &salvage->pieces;
    uint64_t written[RIME_WRITTEN];
    rime_salvage_take(salvage->state, pieces->held, pieces->piece, pieces->count, salvage->log, sizeof salvage->log,
                      salvage->notes, sizeof salvage->notes, written);
    size_t octets = written[RIME_WRITTEN_OUT];
    if (octets > 0 && !salvage->begun) {
        int status = output_open(&salvage->out, salvage->out_name, salvage->force);
        if (status != STATUS_WELL) return status;
        salvage->begun = true;
    }
    say_notes(salvage, written[RIME_WRITTEN_NOTES]);
    if (octets == 0 || output_write(&salvage->out, salvage->log, octets)) return STATUS_WELL;
    progress_end();
    return output_keep(&salvage->out); /* says why it can't be written */
}

static int salvage_log(struct salvage *salvage) {
    struct pieces *pieces = &salvage->pieces;
    rime_salvage_start(salvage->state, pieces->held);
    while (salvage->state[RIME_PIECES_STAGE] != 2 && pieces_next(pieces)) {
        int status = take_piece(salvage);
        if (status != STATUS_WELL) return status;
    }
    int status = pieces_whole(pieces);
    if (status != STATUS_WELL) return status;
    struct fault fault = pieces_fault(pieces, salvage->state);
    if (fault.header) return pieces_say(pieces, fault);
    progress_end();
    status = output_keep(&salvage->out);
    if (status != STATUS_WELL) return status;
    uint64_t octets;
    rime_salvage_end(salvage->state, pieces->held, salvage->notes, sizeof salvage->notes, &octets);
    say_notes(salvage, octets);
    return pieces_say(pieces, fault);
}

int desk_salvage(int argc, char **argv) {
    static struct salvage salvage;
    static const struct argp argp = {
        .options = options,
        .parser = parse,
        .args_doc = "IN.log OUT.log",
        .doc = "Writes a new log of the records that the receiver takes, and lists what was left out. - is standard input, or "
               "standard output.",
    };
    argp_parse(&argp, argc, argv, 0, NULL, &salvage);
    place_apart(salvage.in_name, &salvage.out_name, 1);
    int status = pieces_open(&salvage.pieces, salvage.in_name);
    if (status != STATUS_WELL) return status;
    progress_begin(salvage.pieces.name, salvage.pieces.whole.length, salvage.quiet);
    status = salvage_log(&salvage);
    progress_end();
    pieces_close(&salvage.pieces);
    output_drop(&salvage.out);
    return status;
}
