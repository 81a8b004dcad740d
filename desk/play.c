/* rimesatchel play: the cells of a log onto the line, as fast as the reading goes, or into a capture. */
#include <argp.h>
#include <err.h>
#include <errno.h>
#include <poll.h>
#include <stdio.h>
#include <string.h>
#include <time.h>
#include <unistd.h>

#include "capture.h"
#include "options.h"
#include "place.h"

enum { GROUP = 4, GROUP_MOST = 14, SECOND = 1000000000, HELD_UP = SECOND / 10, BUFFER = 1 << 16 };

struct play {
    const char *in_name, *capture_name;
    struct end to;
    struct circuit circuit;
    unsigned rate, group;
    bool force, quiet;

    struct reading reading;
    struct output capture;
    uint8_t held[BUFFER]; /* of the capture: octets that aren't written yet */
    size_t used;
    int socket;
    uint64_t start; /* nanoseconds */
    uint8_t datagram[WIRE_ROOM];
    unsigned cells; /* in it */
    uint16_t sequence;

    uint64_t played, datagrams; /* cells and datagrams */
    uint64_t refused, unsent;   /* datagrams: how often nobody listened, and those that couldn't be sent */
    int error;                  /* why not */
    uint64_t held_up, held_for; /* how often, and nanoseconds in all */
};

static const struct argp_option options[] = {
    {"to", 't', "HOST[:PORT]", 0,
     "where the datagrams go; the port is 6635 where none is given, IPv6 stands in brackets", 0},
    {"capture", 'C', "FILE", 0, "write a capture of the datagrams instead, with sample time from 0", 0},
    {"label", 'l', "NUMBER", 0, "label of the pseudowire, 16 to 1048575; 100 where this is left out", 0},
    {"circuit", 'c', "VPI/VCI", 0, "the circuit on it; 0/128 where this is left out", 0},
    {"rate", 'r', "HZ", 0, "sampling frequency; 48000 where this is left out", 0},
    {"group", 'g', "CELLS", 0, "cells in a datagram, 1 to 14; 4 where this is left out", 0},
    {"force", 'F', NULL, 0, "write over the capture if it is there", 0},
    {"quiet", 'q', NULL, 0, "no bar and no summary", 0},
    {0},
};

static unsigned option_group(const struct argp_state *state, const char *word) {
    unsigned group = option_number(state, "group", word, 10);
    if (group == 0 || group > GROUP_MOST) argp_error(state, "--group: 1 to %d", GROUP_MOST);
    return group;
}

static error_t parse(int key, char *word, struct argp_state *state) {
    struct play *play = state->input;
    switch (key) {
    case 't': play->to = option_end(state, "to", word, OPTION_HOST); break;
    case 'C': play->capture_name = word; break;
    case 'l': play->circuit.label = option_label(state, word); break;
    case 'c': option_circuit(state, word, &play->circuit); break;
    case 'r': play->rate = option_rate(state, word); break;
    case 'g': play->group = option_group(state, word); break;
    case 'F': play->force = true; break;
    case 'q': play->quiet = true; break;
    case ARGP_KEY_ARG:
        if (play->in_name != NULL) argp_usage(state);
        play->in_name = word;
        break;
    case ARGP_KEY_END:
        if (play->in_name == NULL) argp_usage(state);
        if ((play->to.host[0] == '\0') == (play->capture_name == NULL)) argp_error(state, "one of --to and --capture");
        break;
    default: return ARGP_ERR_UNKNOWN;
    }
    return 0;
}

static uint64_t now(void) {
    struct timespec time;
    clock_gettime(CLOCK_MONOTONIC, &time);
    return (uint64_t)time.tv_sec * SECOND + (uint64_t)time.tv_nsec;
}

/* When so many cells are over, in nanoseconds from the start. */
static uint64_t due(const struct play *play, uint64_t cells) {
    return (uint64_t)((unsigned __int128)cells * play->reading.times * SECOND / play->rate);
}

/* Waits for a time. A player that was held up moves its start, and doesn't hurry after it. */
static void wait_for(struct play *play, uint64_t time) {
    struct timespec until = {(time_t)(time / SECOND), (long)(time % SECOND)};
    while (clock_nanosleep(CLOCK_MONOTONIC, TIMER_ABSTIME, &until, NULL) == EINTR) continue;
    uint64_t after = now() - time;
    if (after <= HELD_UP) return;
    play->start += after;
    play->held_up++;
    play->held_for += after;
}

/* An error may be an earlier datagram's, and then this one wasn't sent: it is sent once more. */
static void send_datagram(struct play *play, size_t count) {
    for (int tries = 0; tries < 2; tries++) {
        if (send(play->socket, play->datagram, count, 0) >= 0) return;
        if (errno == ECONNREFUSED) play->refused++;
        else play->error = errno;
    }
    play->unsent++;
}

static bool write_held(struct play *play) {
    bool good = output_write(&play->capture, play->held, play->used);
    play->used = 0;
    return good;
}

static bool put_datagram(struct play *play, size_t count) {
    if (play->used + CAPTURE_BEFORE + count > sizeof play->held && !write_held(play)) return false;
    capture_before(play->held + play->used, due(play, play->played), WIRE_PORT, count);
    memcpy(play->held + play->used + CAPTURE_BEFORE, play->datagram, count);
    play->used += CAPTURE_BEFORE + count;
    return true;
}

/* The datagram leaves when the last cell in it is over. False where the capture can't be written. */
static bool leave(struct play *play) {
    size_t count = WIRE_FRONT + play->cells * WIRE_CELL;
    if (play->cells == 0) return true;
    wire_front(play->datagram, &play->circuit, play->sequence, play->cells);
    play->played += play->cells;
    play->cells = 0;
    play->sequence = wire_on(play->sequence, 1);
    play->datagrams++;
    if (play->capture_name != NULL) return put_datagram(play, count);
    wait_for(play, play->start + due(play, play->played));
    send_datagram(play, count);
    return true;
}

/* All records, up to the end or the fault: those too that the receiver would refuse. */
static enum step play_all(struct play *play) {
    struct reading *reading = &play->reading;
    enum step step;
    play->start = now();
    while ((step = reading_step(reading)) == STEP_SOUND || step == STEP_REFUSED) {
        wire_cell(play->datagram + WIRE_FRONT + play->cells * WIRE_CELL, &play->circuit, reading->indication,
                  reading->cell);
        if (++play->cells == play->group && !leave(play)) break;
    }
    leave(play);
    return step;
}

static int open_socket(struct play *play) {
    struct addrinfo *found = line_find(&play->to);
    if (found == NULL) return STATUS_FILE;
    for (struct addrinfo *at = found; at != NULL; at = at->ai_next) {
        play->socket = socket(at->ai_family, at->ai_socktype | SOCK_CLOEXEC, at->ai_protocol);
        if (play->socket >= 0 && connect(play->socket, at->ai_addr, at->ai_addrlen) == 0) break;
        play->error = errno;
        if (play->socket >= 0) close(play->socket);
        play->socket = -1;
    }
    freeaddrinfo(found);
    errno = play->error;
    play->error = 0;
    return play->socket >= 0 ? STATUS_WELL : say_failed(play->to.host);
}

/* That nobody listened to the last datagrams is told a little later. */
static void listen_after(struct play *play) {
    struct pollfd wait = {.fd = play->socket};
    int error = 0;
    socklen_t room = sizeof error;
    poll(&wait, 1, HELD_UP / 1000000);
    if (getsockopt(play->socket, SOL_SOCKET, SO_ERROR, &error, &room) == 0 && error == ECONNREFUSED) play->refused++;
    close(play->socket);
}

static void say_summary(const struct play *play) {
    char length[DURATION];
    fprintf(stderr, "%s: %llu cell%s in %llu datagram%s, %s at %u Hz\n", play->reading.name,
            (unsigned long long)play->played, plural(play->played), (unsigned long long)play->datagrams,
            plural(play->datagrams), duration((double)due(play, play->played) / SECOND, length), play->rate);
    if (play->held_up > 0)
        fprintf(stderr, "%s: held up %llu time%s, %.3f s in all\n", play->reading.name,
                (unsigned long long)play->held_up, plural(play->held_up), (double)play->held_for / SECOND);
}

/* How the sending ended. */
static int say_sent(const struct play *play) {
    if (play->refused > 0) {
        warnx("%s: nobody listened on port %u: that was told %llu time%s", play->to.host, play->to.port,
              (unsigned long long)play->refused, plural(play->refused));
        return STATUS_NO;
    }
    if (play->unsent == 0) return STATUS_WELL;
    errno = play->error;
    warn("%s: %llu datagram%s couldn't be sent", play->to.host, (unsigned long long)play->unsent, plural(play->unsent));
    return STATUS_FILE;
}

static int play_log(struct play *play) {
    bool captured = play->capture_name != NULL;
    int status = captured ? output_open(&play->capture, play->capture_name, play->force) : open_socket(play);
    if (status != STATUS_WELL) return status;
    capture_start(play->held);
    play->used = CAPTURE_START;
    enum step last = play_all(play);
    progress_end();
    if (captured && last != STEP_FAILED) {
        write_held(play);
        status = output_keep(&play->capture);
    } else if (!captured) {
        listen_after(play);
        status = say_sent(play);
    }
    if (last == STEP_FAILED || status == STATUS_FILE) return STATUS_FILE;
    if (!play->quiet) say_summary(play);
    return last == STEP_BROKEN ? reading_broken(&play->reading) : status;
}

int desk_play(int argc, char **argv) {
    static struct play play = {
        .circuit = {100, 0, 128}, .rate = 48000, .group = GROUP, .sequence = 1, .socket = -1, .capture.fd = -1};
    static const struct argp argp = {
        .options = options,
        .parser = parse,
        .args_doc = "LOG",
        .doc = "Plays a log onto the line: its cells in datagrams of a pseudowire, each when its last cell is over. A "
               "LOG - is "
               "standard input.",
    };
    argp_parse(&argp, argc, argv, 0, NULL, &play);
    place_apart(play.in_name, &play.capture_name, 1);
    int status = reading_begin(&play.reading, play.in_name, play.quiet);
    if (status != STATUS_WELL) return status;
    status = play_log(&play);
    reading_close(&play.reading);
    output_drop(&play.capture);
    return status;
}
