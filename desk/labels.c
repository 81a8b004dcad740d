/* rimesatchel labels: the channel status blocks that a log carries. Those that say the same in a row are one line. */
#include <argp.h>
#include <err.h>
#include <errno.h>
#include <stdio.h>
#include <string.h>
#include <unistd.h>

#include "blocks.h"
#include "frequency.h"
#include "json.h"
#include "options.h"
#include "slips.h"
#include "status.h"

/* Octets of a block that are compared with the one before it: those up to the sample addresses, which count on, and the
   flags after them. */
enum { ALIKE = 14, FLAGS = 22 };

struct channel {
    uint8_t said[RIME_OUT]; /* the last that was handed out: answer, then octets */
    uint64_t count;         /* blocks like it in a row, 0 before the first */
    uint64_t from, past;    /* sample times of theirs */
    uint64_t lines;
};

struct labels {
    const char *name;
    bool quiet, json, no_slips;
    bool told;    /* the document is begun */
    bool assumed; /* a line counts its seconds by a frequency that nothing says */
    struct reading reading;
    struct frequency frequency;
    struct channel channels[RIME_MOST_SLOTS];
    struct blocks blocks;
    uint64_t time; /* sample times before what is handed out */
};

static const struct argp_option options[] = {
    {"rate", 'r', "HZ", 0, "sampling frequency, whatever channel status says; without both it is 48000", 0},
    {"json", 'j', NULL, 0, "print a document of JSON", 0},
    {"no-slips", OPTION_NO_SLIPS, NULL, 0, "put in nothing for cells that only second numbers tell of", 0},
    {"quiet", 'q', NULL, 0, "no bar", 0},
    {0},
};

static error_t parse(int key, char *word, struct argp_state *state) {
    struct labels *labels = state->input;
    switch (key) {
    case 'r': labels->frequency.asked = option_rate(state, word); break;
    case 'j': labels->json = true; break;
    case OPTION_NO_SLIPS: labels->no_slips = true; break;
    case 'q': labels->quiet = true; break;
    case ARGP_KEY_ARG:
        if (state->arg_num > 0) argp_usage(state);
        labels->name = word;
        break;
    case ARGP_KEY_NO_ARGS: argp_usage(state); break;
    default: return ARGP_ERR_UNKNOWN;
    }
    return 0;
}

static void say_letters(const char *what, const uint8_t *letters) {
    printf(", %s \"", what);
    for (unsigned at = 0; at < STATUS_LETTERS; at++)
        if (letters[at] >= 0x20 && letters[at] < 0x7F) putchar(letters[at]);
        else if (letters[at] != 0) printf("\\x%02X", letters[at]);
    putchar('"');
}

static void say_professional(const uint8_t *octets) {
    unsigned rate = status_rate(octets), bits = status_sample_bits(octets);
    printf(", professional");
    if (rate != 0) printf(", %u Hz", rate);
    if (bits != 0) printf(", %u bits", bits);
    if (status_flagged(octets)) printf(" (flagged as unreliable)");
    say_letters("origin", octets + STATUS_ORIGIN);
    say_letters("destination", octets + STATUS_DESTINATION);
}

/*
 * The frequency that a line counts seconds by: what its own blocks name. Where they don't fit or are flagged, the log's
 * goes before it, if anything names that.
 */
static unsigned rate_of(struct labels *labels, const uint8_t said[RIME_OUT]) {
    const struct frequency *frequency = &labels->frequency;
    bool professional = said[RIME_OUT_ANSWER] != RIME_STATUS_NONE_CARRIED;
    unsigned own = professional ? status_rate(said + RIME_OUT_OCTETS) : 0;
    if (frequency->asked != 0) return frequency->asked;
    if (own != 0 && (status_counts(said) || frequency_assumed(frequency))) return own;
    labels->assumed |= frequency_assumed(frequency);
    return frequency->rate;
}

static const char *const answers[] = {"neither", "doesn't fit", "fits", "none carried"};

static void tell_letters(const char *key, const uint8_t *letters) {
    size_t count = STATUS_LETTERS;
    while (count > 0 && letters[count - 1] == 0) count--;
    doc_octets(key, letters, count);
}

static void tell_professional(const uint8_t *octets) {
    unsigned rate = status_rate(octets), bits = status_sample_bits(octets);
    if (rate != 0) doc_number("rate", rate);
    if (bits != 0) doc_number("bits", bits);
    doc_flag("flagged", status_flagged(octets));
    tell_letters("origin", octets + STATUS_ORIGIN);
    tell_letters("destination", octets + STATUS_DESTINATION);
}

static void tell_blocks(struct labels *labels, unsigned number) {
    const struct channel *channel = &labels->channels[number];
    unsigned answer = channel->said[RIME_OUT_ANSWER];
    doc_object(NULL);
    doc_number("channel", number + 1);
    doc_number("from", channel->from);
    doc_number("past", channel->past);
    doc_number("seconds_at", rate_of(labels, channel->said));
    doc_number("blocks", channel->count);
    doc_text("answer", answers[answer % 4]);
    doc_flag("professional", answer != RIME_STATUS_NONE_CARRIED);
    if (answer != RIME_STATUS_NONE_CARRIED) tell_professional(channel->said + RIME_OUT_OCTETS);
    doc_end();
}

static void say_blocks(struct labels *labels, unsigned number) {
    const struct channel *channel = &labels->channels[number];
    if (labels->json) {
        tell_blocks(labels, number);
        return;
    }
    unsigned answer = channel->said[RIME_OUT_ANSWER], rate = rate_of(labels, channel->said);
    printf("channel %u: %.6f to %.6f s, %llu block%s: %s", number + 1, (double)channel->from / rate,
           (double)channel->past / rate, (unsigned long long)channel->count, plural(channel->count),
           answers[answer % 4]);
    if (answer == RIME_STATUS_NONE_CARRIED) printf(", consumer use");
    else say_professional(channel->said + RIME_OUT_OCTETS);
    putchar('\n');
}

static bool are_alike(const uint8_t a[RIME_OUT], const uint8_t b[RIME_OUT]) {
    return memcmp(a, b, RIME_OUT_OCTETS + ALIKE) == 0 && a[RIME_OUT_OCTETS + FLAGS] == b[RIME_OUT_OCTETS + FLAGS];
}

static void take_block(void *user, unsigned number, const uint8_t *out, uint64_t passed) {
    struct labels *labels = user;
    struct channel *channel = &labels->channels[number];
    uint64_t past = labels->time + passed;
    if (channel->count == 0 || !are_alike(out, channel->said)) {
        if (channel->count > 0) say_blocks(labels, number);
        memcpy(channel->said, out, RIME_OUT);
        channel->count = 0;
        channel->from = past - STATUS_BITS;
        channel->lines++;
    }
    channel->count++;
    channel->past = past;
}

/* Brings each channel's block forward by what is handed out. */
static bool take(const struct handed *handed, void *user) {
    struct labels *labels = user;
    labels->time = handed->time;
    blocks_take(&labels->blocks, labels->reading.channels, handed->ancillary, handed->marks, handed->given, take_block, labels);
    return true;
}

/* What each channel had last, or that it had none. */
static void say_rest(struct labels *labels) {
    const struct reading *reading = &labels->reading;
    for (unsigned number = 0; number < reading->channels; number++)
        if (labels->channels[number].count > 0) say_blocks(labels, number);
        else if (labels->json) continue;
        else if (reading->format.ancillary) printf("channel %u: no channel status block\n", number + 1);
        else printf("channel %u: no channel status block: the format has no ancillary bits\n", number + 1);
}

static void begin_document(struct labels *labels) {
    const struct reading *reading = &labels->reading;
    labels->told = true;
    doc_object(NULL);
    doc_text("log", labels->name);
    doc_number("format", reading->header[RIME_HEADER_FORMAT]);
    doc_number("channels", reading->channels);
    doc_number("order", reading->header[RIME_HEADER_ORDER]);
    doc_flag("ancillary", reading->format.ancillary);
    doc_number("rate", labels->frequency.rate);
    doc_text("rate_by", frequency_by(&labels->frequency));
    doc_array("blocks");
}

static void end_document(const struct labels *labels, int status) {
    if (!labels->told) {
        doc_object(NULL);
        doc_text("log", labels->name);
        if (status == STATUS_REFUSED) doc_refusal("refused", labels->reading.refusal);
    }
    doc_number("status", (uint64_t)status);
    doc_end();
}

static int label_all(struct labels *labels) {
    struct reading *reading = &labels->reading;
    frequency_find(&labels->frequency, reading);
    if (labels->json) begin_document(labels);
    enum step step = frequency_walk(&labels->frequency, take, labels);
    progress_end();
    if (step != STEP_FAILED) say_rest(labels);
    if (labels->json) doc_end();
    if (step == STEP_FAILED) return STATUS_FILE;
    slips_say(&reading->slips, reading->name);
    if (labels->json && step == STEP_BROKEN) doc_broken(reading->record, reading->refusal);
    if (labels->assumed && !labels->quiet)
        warnx("%s: seconds are counted at %u Hz, which is assumed (--rate)", reading->name, labels->frequency.rate);
    return step == STEP_BROKEN ? reading_broken(reading) : STATUS_WELL;
}

int desk_labels(int argc, char **argv) {
    static struct labels labels;
    static const struct argp argp = {
        .options = options,
        .parser = parse,
        .args_doc = "IN.log",
        .doc = "Shows the channel status blocks that a log carries. - is standard input.",
    };
    argp_parse(&argp, argc, argv, 0, NULL, &labels);
    int status = reading_begin(&labels.reading, labels.name, labels.quiet || isatty(STDOUT_FILENO));
    if (labels.no_slips) labels.reading.slips.off = true;
    if (status == STATUS_WELL) {
        status = label_all(&labels);
        reading_close(&labels.reading);
        frequency_close(&labels.frequency);
    } else if (!labels.json) return status;
    if (labels.json) end_document(&labels, status);
    return printed(status);
}
