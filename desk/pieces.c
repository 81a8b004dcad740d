/* A log, read a piece at a time for the proved calls that take one so. */
#include "pieces.h"

#include <errno.h>
#include <fcntl.h>
#include <string.h>
#include <unistd.h>

int pieces_open(struct pieces *pieces, const char *name) {
    memset(pieces, 0, sizeof *pieces);
    pieces->name = shown(name, false);
    pieces->fd = strcmp(name, "-") == 0 ? STDIN_FILENO : open(name, O_RDONLY | O_CLOEXEC);
    if (pieces->fd < 0) {
        progress_clear();
        return say_failed(name);
    }
    whole_begin(&pieces->whole, pieces->fd);
    return STATUS_WELL;
}

void pieces_close(struct pieces *pieces) {
    if (pieces->fd > STDIN_FILENO) close(pieces->fd);
    pieces->fd = -1;
}

/* Keeps the log's first octets, for what is said of a header. */
static void keep_first(struct pieces *pieces) {
    size_t wanted = sizeof pieces->first - pieces->firsts, more = pieces->count < wanted ? pieces->count : wanted;
    memcpy(pieces->first + pieces->firsts, pieces->piece, more);
    pieces->firsts += more;
}

bool pieces_next(struct pieces *pieces) {
    ssize_t got;
    do got = read(pieces->fd, pieces->piece, PIECE);
    while (got < 0 && errno == EINTR);
    if (got < 0) {
        progress_clear();
        say_failed(pieces->name);
        pieces_close(pieces);
        return false;
    }
    pieces->ended = got == 0;
    pieces->count = (size_t)got;
    pieces->octets += pieces->count;
    keep_first(pieces);
    progress_at(pieces->octets);
    return !pieces->ended;
}

int pieces_whole(struct pieces *pieces) {
    progress_clear();
    if (pieces->fd < 0) return STATUS_FILE;
    return whole_end(&pieces->whole, pieces->name, pieces->octets, pieces->ended) ? STATUS_WELL : STATUS_FILE;
}

struct fault pieces_fault(const struct pieces *pieces, const uint64_t *state) {
    size_t count = (size_t)state[RIME_PIECES_HELD];
    uint32_t header[RIME_HEADER];
    uint64_t found[RIME_RECORD], stage = state[RIME_PIECES_STAGE];
    struct fault fault = {.refusal = (unsigned)state[RIME_PIECES_FAULT], .header = stage == 0 || stage == 2};
    if (stage == 0) fault.refusal = rime_log_header(pieces->held, count, header);
    if (stage == 1) fault.refusal = rime_log_record(pieces->held, count, 0, found);
    if (!fault.header) fault.record = state[RIME_PIECES_RECORDS];
    return fault;
}

int pieces_say(const struct pieces *pieces, struct fault fault) {
    if (fault.refusal == RIME_DONE) return STATUS_WELL;
    progress_clear();
    if (fault.header) return say_header(pieces->name, pieces->first, pieces->firsts, fault.refusal);
    return say_broken(pieces->name, fault.record, fault.refusal);
}
