/* rimesatchel record: what comes from the line into a log, durably, with a status that a nightly job can trust. */
#include <argp.h>
#include <err.h>
#include <errno.h>
#include <stdio.h>
#include <string.h>
#include <time.h>
#include <unistd.h>

#include "capture.h"
#include "listen.h"
#include "options.h"
#include "told.h"

enum { SECOND = 1000000000 };
enum { GAP = RIME_MOST_MISSING, GAP_MOST = 119, PIECES = 100, PIECES_MOST = 10000, RATE = 48000, SILENCE = 10 };

struct record {
    const char *capture_name, *from;
    bool listens, is_every, is_port;
    struct end at;
    unsigned port, gap;
    uint64_t lasts, idle; /* nanoseconds: --for and --idle; 0 where they aren't given */

    struct recording recording;
    struct order order;
    struct told told;
    struct senders senders;
    struct listener listener;
    struct capture capture;
    uint64_t synced;
};

static volatile sig_atomic_t stopped;

static void stop(int number) {
    stopped = number;
}

enum { KEY_FOR = 256, KEY_IDLE, KEY_MOST, KEY_GAP, KEY_PIECES, KEY_EVERY, KEY_SILENCE, KEY_LEAST, KEY_ALLOW };

static const struct argp_option options[] = {
    {"listen", 'L', "[ADDRESS:]PORT", 0, "take datagrams that come here; the address is 127.0.0.1 where none is given",
     0},
    {"capture", 'C', "FILE", 0, "take datagrams from a capture instead", 0},
    {"port", 'p', "PORT", 0, "the port in the capture; 6635 where this is left out", 0},
    {"from", 'H', "HOST", 0, "take datagrams of this host alone; must be given where ADDRESS isn't loopback", 0},
    {"label", 'l', "NUMBER", 0, "label of the pseudowire, 16 to 1048575; 100 where this is left out", 0},
    {"circuit", 'c', "VPI/VCI", 0, "the circuit on it; 0/128 where this is left out", 0},
    {"format", 'f', "OCTET", 0, "subframe format, in hex; 56 where this is left out", 0},
    {"channels", 'n', "NUMBER", 0, "channels; must be given", 0},
    {"order", 'o', "0|1", 0, "order of the slots in a cell; 0 where this is left out", 0},
    {"rate", 'r', "HZ", 0, "sampling frequency; 48000 where this is left out", 0},
    {"for", KEY_FOR, "S", 0, "end after S seconds; room on the disk is taken beforehand", 0},
    {"idle", KEY_IDLE, "S", 0, "end when no cell came for S seconds", 0},
    {"most", KEY_MOST, "OCTETS", 0, "the most octets of all logs; where more comes the status is 3", 0},
    {"gap", KEY_GAP, "CELLS", 0,
     "begin a new log where more cells than this are lost in a row; 14 where this is left out, at most 119, for "
     "senders with "
     "second numbers",
     0},
    {"pieces", KEY_PIECES, "NUMBER", 0, "the most logs; 100 where this is left out", 0},
    {"every", KEY_EVERY, "S", 0, "a line each S seconds; on a terminal each second where this is left out", 0},
    {"silence", KEY_SILENCE, "S", 0,
     "tell of silence from S seconds on; 10 where this is left out. Given: a longer one is a no", 0},
    {"least", KEY_LEAST, "S", 0, "less sound than S seconds is a no", 0},
    {"allow", KEY_ALLOW, "NUMBER", 0, "this number of cells in a million may be missing", 0},
    {"quiet", 'q', NULL, 0, "no line while it runs and no summary", 0},
    {0},
};

/* Seconds, also a part of one, in nanoseconds. */
static uint64_t option_seconds(const struct argp_state *state, const char *name, const char *word) {
    char *end;
    double number = strtod(word, &end);
    if (strspn(word, "0123456789.") != strlen(word) || *end != '\0' || number < 0.001 || number > 1e9)
        argp_error(state, "--%s: seconds, 0.001 to 1000000000", name);
    return (uint64_t)(number * SECOND + 0.5);
}

static uint64_t option_within(const struct argp_state *state, const char *name, const char *word, uint64_t least,
                              uint64_t most) {
    uint64_t number = option_up_to(state, name, word, 10, UINT64_MAX);
    if (number < least || number > most)
        argp_error(state, "--%s: %llu to %llu", name, (unsigned long long)least, (unsigned long long)most);
    return number;
}

/* In formats without overhead nothing in the log could tell the place: there every lost datagram begins a new one. */
static void see_call(struct record *record, const struct argp_state *state) {
    const struct settings *settings = &record->recording.settings;
    uint32_t facts[RIME_FORMAT];
    bool known = rime_format(settings->format, facts) == RIME_DONE;
    if (record->recording.name == NULL) argp_usage(state);
    if (strcmp(record->recording.name, "-") == 0) argp_error(state, "a log is recorded into a file");
    if (record->listens == (record->capture_name != NULL)) argp_error(state, "one of --listen and --capture");
    if (record->is_port && record->listens) argp_error(state, "--port goes with --capture");
    if (settings->channels == UINT32_MAX) argp_error(state, "--channels must be given");
    if (known && facts[RIME_FORMAT_OVERHEAD_BITS] == 0 && record->gap > 0 && record->gap != UINT32_MAX)
        argp_error(state, "--gap: %02X hex has no overhead, and every lost datagram begins a new log",
                   settings->format);
    record->recording.gap = record->gap == UINT32_MAX ? GAP : record->gap;
}

static error_t parse_limit(int key, char *word, struct argp_state *state) {
    struct record *record = state->input;
    struct recording *recording = &record->recording;
    struct told *told = &record->told;
    switch (key) {
    case KEY_FOR: record->lasts = option_seconds(state, "for", word); break;
    case KEY_IDLE: record->idle = option_seconds(state, "idle", word); break;
    case KEY_MOST:
        recording->most = option_within(state, "most", word, RIME_HEADER_OCTETS + RIME_RECORD_OCTETS, INT64_MAX);
        break;
    case KEY_GAP: record->gap = (unsigned)option_within(state, "gap", word, 0, GAP_MOST); break;
    case KEY_PIECES: recording->pieces = (unsigned)option_within(state, "pieces", word, 1, PIECES_MOST); break;
    case KEY_EVERY:
        told->every = option_seconds(state, "every", word);
        record->is_every = true;
        break;
    case KEY_SILENCE:
        recording->silence = option_seconds(state, "silence", word);
        told->demands.is_silence = true;
        break;
    case KEY_LEAST: told->demands.least = option_seconds(state, "least", word); break;
    case KEY_ALLOW:
        told->demands.allowed = option_within(state, "allow", word, 0, 1000000);
        told->demands.is_allowed = true;
        break;
    default: return ARGP_ERR_UNKNOWN;
    }
    return 0;
}

static error_t parse(int key, char *word, struct argp_state *state) {
    struct record *record = state->input;
    struct settings *settings = &record->recording.settings;
    switch (key) {
    case 'L':
        record->at = option_end(state, "listen", word, OPTION_PORT);
        record->listens = true;
        break;
    case 'C': record->capture_name = word; break;
    case 'p':
        record->port = (unsigned)option_within(state, "port", word, 1, 65535);
        record->is_port = true;
        break;
    case 'H': record->from = word; break;
    case 'l': record->recording.circuit.label = option_label(state, word); break;
    case 'c': option_circuit(state, word, &record->recording.circuit); break;
    case 'f': settings->format = option_number(state, "format", word, 16); break;
    case 'n': settings->channels = (unsigned)option_up_to(state, "channels", word, 10, UINT32_MAX - 1); break;
    case 'o': settings->order = option_number(state, "order", word, 10); break;
    case 'r': record->recording.rate = option_rate(state, word); break;
    case 'q': record->recording.quiet = record->told.quiet = true; break;
    case ARGP_KEY_ARG:
        if (record->recording.name != NULL) argp_usage(state);
        record->recording.name = word;
        break;
    case ARGP_KEY_END: see_call(record, state); break;
    default: return parse_limit(key, word, state);
    }
    return 0;
}

static uint64_t now(void) {
    struct timespec time;
    clock_gettime(CLOCK_MONOTONIC, &time);
    return (uint64_t)time.tv_sec * SECOND + (uint64_t)time.tv_nsec;
}

/* False where nothing more can be written. */
static bool take(struct record *record, struct datagram datagram, const struct address *from) {
    struct recording *recording = &record->recording;
    uint16_t sequence;
    enum wire why = senders_have(&record->senders, from)
                        ? wire_datagram(datagram.octets, datagram.count, &recording->circuit, &sequence)
                        : WIRE_STRANGER;
    if (why == WIRE_TAKEN) return order_take(&record->order, sequence, datagram);
    recording->not_taken[why]++;
    return true;
}

/* What the time brings: those that waited long enough, and lines; and each second of our own clock all goes to the
 * disk. */
static bool pass(struct record *record, uint64_t time, uint64_t clock) {
    if (!order_wait(&record->order, time)) return false;
    recording_at(&record->recording, time);
    told_at(&record->told, time);
    if (clock - record->synced < SECOND) return true;
    if (!lasting_sync(&record->recording.lasting)) return false;
    record->synced = now();
    return true;
}

static bool is_over(const struct record *record, uint64_t time) {
    const struct recording *recording = &record->recording;
    if (stopped != 0) return true;
    if (record->lasts != 0 && time >= recording->begun && time - recording->begun >= record->lasts) return true;
    return record->idle != 0 && time >= recording->last && time - recording->last >= record->idle;
}

static void begin(struct record *record, uint64_t time) {
    record->recording.begun = record->recording.last = record->recording.now = record->told.since = time;
    record->told.next = time + record->told.every;
    record->synced = now();
}

static int from_socket(struct record *record) {
    struct listener *listener = &record->listener;
    if (!record->told.quiet) warnx("listening at %s, port %u", record->at.host, record->at.port);
    begin(record, now());
    for (uint64_t time = record->recording.begun; !is_over(record, time); time = now()) {
        int came = listener_read(listener);
        if (came < 0) return say_failed(record->at.host);
        time = now();
        for (int at = 0; at < came; at++) {
            struct datagram datagram = {listener->octets[at], listener->messages[at].msg_len, time};
            struct address from = address_of(&listener->from[at]);
            if (!take(record, datagram, &from)) return STATUS_FILE;
        }
        if (!pass(record, time, time)) return STATUS_FILE;
        if (came < LISTEN_BATCH) listener_doze(listener, came > 0 || record->order.full > 0);
    }
    return order_end(&record->order) ? STATUS_WELL : STATUS_FILE;
}

static int from_capture(struct record *record, struct capture *capture) {
    struct captured captured;
    enum capture_step step;
    bool begun = false;
    while ((step = capture_next(capture, &captured)) == CAPTURE_DATAGRAM) {
        struct datagram datagram = {captured.octets, captured.count, captured.came};
        if (!begun) begin(record, captured.came);
        begun = true;
        if (is_over(record, captured.came)) break;
        if (!pass(record, captured.came, now()) || !take(record, datagram, &captured.from)) return STATUS_FILE;
    }
    if (!order_end(&record->order)) return STATUS_FILE;
    if (capture->passed > 0 && !record->told.quiet)
        fprintf(stderr, "%s: %llu packet%s passed over, %llu of them captured in part\n", capture->name,
                (unsigned long long)capture->passed, plural(capture->passed), (unsigned long long)capture->part);
    return step == CAPTURE_CUT ? STATUS_REFUSED : step == CAPTURE_FAILED ? STATUS_FILE : STATUS_WELL;
}

/* The end is orderly whatever brings it. A write that fails is told by write; a line that can't be printed ends
 * nothing. */
static void set_signals(void) {
    struct sigaction action = {.sa_handler = stop}, before;
    sigaction(SIGINT, &action, NULL);
    sigaction(SIGTERM, &action, NULL);
    if (sigaction(SIGHUP, NULL, &before) == 0 && before.sa_handler != SIG_IGN) sigaction(SIGHUP, &action, NULL);
    signal(SIGXFSZ, SIG_IGN);
    signal(SIGPIPE, SIG_IGN);
}

/* Octets of all cells that can come in the time. */
static uint64_t room_for(const struct record *record) {
    const struct recording *recording = &record->recording;
    uint32_t facts[RIME_FORMAT];
    unsigned channels = recording->settings.channels;
    if (record->lasts == 0 || rime_format(recording->settings.format, facts) != RIME_DONE || channels == 0) return 0;
    unsigned times = facts[RIME_FORMAT_SLOTS] / channels;
    if (times == 0) return 0;
    double cells = (double)record->lasts / SECOND * recording->rate / times + 1;
    uint64_t room = RIME_HEADER_OCTETS + (uint64_t)cells * RIME_RECORD_OCTETS;
    return room < recording->most ? room : recording->most;
}

static int record_all(struct record *record) {
    struct recording *recording = &record->recording;
    int status = recording_open(recording);
    if (status != STATUS_WELL) return status;
    status = record->listens ? from_socket(record) : from_capture(record, &record->capture);
    if (record->listens) record->told.dropped = listener_dropped(&record->listener);
    if (!recording_close(recording)) status = STATUS_FILE;
    told_clear();
    if (recording->full)
        warnx("%s: more came than --most lets in: %llu records are kept", recording->name,
              (unsigned long long)recording->cells);
    if (!record->told.quiet) told_summary(&record->told);
    status = told_answer(&record->told, status);
    told_line(&record->told, status);
    return printed(status);
}

/* Where the datagrams come from, and who may send them. */
static int open_line(struct record *record) {
    if (record->at.host[0] == '\0') strcpy(record->at.host, "127.0.0.1");
    int status = record->from == NULL ? STATUS_WELL : senders_find(&record->senders, record->from);
    if (status != STATUS_WELL) return status;
    return record->listens ? listener_open(&record->listener, &record->at, record->from == NULL)
                           : capture_open(&record->capture, record->capture_name, record->port, &stopped);
}

static struct record record = {
    .port = WIRE_PORT,
    .gap = UINT32_MAX,
    .senders.any = true,
    .recording = {.circuit = {100, 0, 128},
                  .settings = {0x56, UINT32_MAX, 0, 0, 0},
                  .rate = RATE,
                  .pieces = PIECES,
                  .most = UINT64_MAX,
                  .silence = UINT64_C(1000000000) * SILENCE},
    .order = {.turn = recording_turn, .user = &record.recording},
    .told = {.recording = &record.recording, .order = &record.order},
};

int desk_record(int argc, char **argv) {
    static const struct argp argp = {
        .options = options,
        .parser = parse,
        .args_doc = "OUT.log",
        .doc = "Records what comes from the line: the cells of one circuit, from the datagrams of a pseudowire, into a "
               "log. Ends "
               "with 1 where the reading isn't whole, or nothing came.",
    };
    argp_parse(&argp, argc, argv, 0, NULL, &record);
    record.told.terminal = !record.is_every && isatty(STDERR_FILENO);
    if (record.told.terminal) record.told.every = SECOND;
    if (record.told.quiet) record.told.every = 0;
    record.recording.room = room_for(&record);
    set_signals();
    int status = open_line(&record);
    return status == STATUS_WELL ? record_all(&record) : status;
}
