/* rimesatchel receive: takes a log and writes its sound, silence where cells are missing, and shows where that is. */
#include <argp.h>
#include <err.h>
#include <stdio.h>
#include <stdlib.h>
#include <string.h>
#include <sys/stat.h>
#include <sysexits.h>
#include <unistd.h>

#include "options.h"
#include "place.h"
#include "receive.h"
#include "slips.h"

static const struct argp_option options[] = {
    {"labels", 'l', "FILE", 0, "write an Audacity label track of what is missing or damaged", 0},
    {"marks", 'm', "FILE", 0, "write the mark of each sample as one octet: 0 sound, 1 damaged, 2 missing", 0},
    {"rate", 'r', "HZ", 0, "sampling frequency, whatever channel status says; without both it is 48000", 0},
    {"bits", 'b', "16|24|32", 0, "bits of the file's samples; none that isn't 0 may be dropped for it", 0},
    {"cut", 'c', "16|24|32", 0, "keep the top bits of each sample, and count those that lose others which aren't 0", 0},
    {"length", 'n', "SAMPLES", 0, "end after this number of samples a channel, where that is in the last cell", 0},
    {"sidecar", 'k', "FILE.json", 0, "take length, frequency and bits from it, put back what it keeps, compare samples", 0},
    {"cues", 'C', NULL, 0, "put cue points into a WAV file where samples are missing or damaged, 4096 at most", 0},
    {"sum", 'S', NULL, 0, "print the SHA-256 of OUT.wav, as sha256sum does", 0},
    {"json", 'j', NULL, 0, "print what was received as a document of JSON, in the place of the summary", 0},
    {"no-slips", OPTION_NO_SLIPS, NULL, 0, "put in nothing for cells that only second numbers tell of", 0},
    {"strict", 's', NULL, 0, "end with status 1 where anything is missing, damaged, refused or contradicted", 0},
    {"force", 'F', NULL, 0, "write over files that are there", 0},
    {"quiet", 'q', NULL, 0, "no bar and no summary", 0},
    {0},
};

/* What can't stand together. */
static void check_call(const struct receive *receive, const struct argp_state *state) {
    const char *out = receive->out_name, *in = receive->in_name;
    if (receive->bits != 0 && receive->bits < receive->cut)
        argp_error(state, "--bits %u is less than --cut %u", receive->bits, receive->cut);
    if ((receive->json || receive->sum) && strcmp(out, "-") == 0)
        argp_error(state, "--json and --sum print on standard output, and so the sound can't go there");
    if (receive->sum && place_is_stream(out)) argp_error(state, "--sum: %s can't be read back", out);
    if (receive->cued && !sound_holds_chunks(out)) argp_error(state, "--cues: only a .wav or .rf64 file holds them");
    if (receive->sidecar_name != NULL && strcmp(receive->sidecar_name, "-") == 0 && strcmp(in, "-") == 0)
        argp_error(state, "the log and the sidecar can't both come from standard input");
}

static error_t parse(int key, char *word, struct argp_state *state) {
    struct receive *receive = state->input;
    switch (key) {
    case 'l': receive->labels_name = word; break;
    case 'm': receive->marks_name = word; break;
    case 'r': receive->frequency.asked = option_rate(state, word); break;
    case 'b': receive->bits = option_bits(state, "bits", word); break;
    case 'c': receive->cut = option_bits(state, "cut", word); break;
    case 'n':
        receive->measured = true;
        receive->length = option_up_to(state, "length", word, 10, UINT64_MAX / 2);
        break;
    case OPTION_NO_SLIPS: receive->no_slips = true; break;
    case 's': receive->strict = true; break;
    case 'F': receive->force = true; break;
    case 'q': receive->quiet = true; break;
    case 'k': receive->sidecar_name = word; break;
    case 'C': receive->cued = true; break;
    case 'S': receive->sum = true; break;
    case 'j': receive->json = true; break;
    case ARGP_KEY_SUCCESS: check_call(receive, state); break;
    default: return option_pair(state, key, word, &receive->in_name, &receive->out_name);
    }
    return 0;
}

static int open_outputs(struct receive *receive) {
    receive->fitting = fitting_of(receive->reading.format.sample_bits, receive->bits, receive->cut);
    int status = sound_create(&receive->sound, receive->out_name, receive->reading.channels, receive->fitting.file_bits,
                              receive->force);
    if (status == STATUS_WELL && receive->labels_name != NULL)
        status = output_open(&receive->labels, receive->labels_name, receive->force);
    if (status == STATUS_WELL && receive->marks_name != NULL)
        status = output_open(&receive->marks, receive->marks_name, receive->force);
    return status;
}

/* A word at the start where the records alone, sound as they may be, are more than the file can hold. */
static void warn_of_length(const struct receive *receive) {
    const struct reading *reading = &receive->reading;
    struct stat about;
    if (fstat(reading->fd, &about) != 0 || !S_ISREG(about.st_mode)) return;
    uint64_t records = (uint64_t)about.st_size / RIME_RECORD_OCTETS; /* the header is shorter than one */
    if (records * reading->times <= receive->sound.most) return;
    warnx("%s: %s holds at most %llu samples a channel here, and the records of %s alone have %llu: .wav or .w64 holds them",
          receive->out_name, receive->sound.kind, (unsigned long long)receive->sound.most, reading->name,
          (unsigned long long)(records * reading->times));
}

static void label(const struct stretch *stretch, void *user) {
    struct receive *receive = user;
    char line[STRETCH_LINE];
    if (receive->labels_name != NULL)
        output_write(&receive->labels, line, stretch_label(stretch, receive->frequency.rate, line));
    if (receive->cued) cues_show(&receive->cues, stretch);
    if (receive->json) tell_stretch(stretch);
}

/* False where a file can't be written any more. */
static bool write_held(struct receive *receive) {
    size_t frames = receive->entries / receive->reading.channels;
    bool good = sound_write(&receive->sound, &receive->held, frames) && receive->labels.error == 0;
    if (receive->marks_name != NULL)
        good = output_write(&receive->marks, receive->held_marks, receive->entries) && good;
    receive->entries = 0;
    return good;
}

/* Sound with the silence before it, the marks, the stretches. */
static bool hand_on(struct receive *receive, const struct handed *handed) {
    size_t put = fitting_put(&receive->fitting, handed->samples, handed->given, &receive->held, receive->entries);
    if (put < handed->given) {
        receive->unfit = handed->time * receive->reading.channels + put + 1;
        return false;
    }
    if (receive->sidecar_name != NULL) sidecar_take(receive, handed);
    memcpy(receive->held_marks + receive->entries, handed->marks, handed->given);
    receive->entries += handed->given;
    receive->damaged += stretches_take(&receive->stretches, receive->reading.channels, handed, label, receive);
    receive->times = handed->time + handed->given / receive->reading.channels;
    return receive->entries + DESK_ROOM <= FITTED || write_held(receive);
}

/* What stood after the length: its cell wasn't the last. */
static bool hand_rest(struct receive *receive) {
    struct handed rest = {
        .samples = receive->rest, .marks = receive->rest_marks, .given = receive->rest_given, .time = receive->length};
    receive->rest_given = 0;
    return hand_on(receive, &rest);
}

/* Up to the length, where it lies in the last of these cells; what is left of that cell is kept back. */
static bool hand_part(struct receive *receive, const struct handed *handed) {
    const struct reading *reading = &receive->reading;
    uint64_t past = handed->time + handed->given / reading->channels;
    if (receive->length > past || receive->length + reading->times <= past) return hand_on(receive, handed);
    struct handed part = *handed;
    receive->rest_given = (past - receive->length) * reading->channels;
    part.given -= receive->rest_given;
    memcpy(receive->rest, handed->samples + part.given, receive->rest_given * sizeof *receive->rest);
    memcpy(receive->rest_marks, handed->marks + part.given, receive->rest_given);
    return hand_on(receive, &part);
}

static bool take(const struct handed *handed, void *user) {
    struct receive *receive = user;
    if (!receive->measured) return hand_on(receive, handed);
    if (receive->rest_given > 0 && !hand_rest(receive)) return false;
    return hand_part(receive, handed);
}

/* All records, up to the end or the fault, or until a file can't be written. */
static enum step receive_all(struct receive *receive) {
    enum step step = frequency_walk(&receive->frequency, take, receive);
    stretches_end(&receive->stretches, label, receive);
    write_held(receive);
    if (receive->json) doc_end(); /* of the stretches */
    return step;
}

static int say_bits(const struct receive *receive) {
    unsigned channels = receive->reading.channels, bits = receive->fitting.file_bits;
    uint64_t entry = receive->unfit - 1;
    warnx("%s: sample %llu of channel %u has bits that aren't 0 below its top %u: --cut %u drops them",
          receive->reading.name, (unsigned long long)(entry / channels), (unsigned)(entry % channels) + 1, bits, bits);
    return STATUS_REFUSED;
}

/* Whether the length that was given lies in the last cell; says where it doesn't. */
static bool is_length(const struct receive *receive) {
    if (!receive->measured || receive->times == receive->length) return true;
    const struct reading *reading = &receive->reading;
    const char *what = receive->by_sidecar ? "the sidecar's length" : "--length";
    if (receive->times == 0)
        warnx("%s: %s %llu, and there is no sound cell", reading->name, what, (unsigned long long)receive->length);
    else
        warnx("%s: %s %llu isn't in the last cell (%llu to %llu): nothing is cut", reading->name, what,
              (unsigned long long)receive->length, (unsigned long long)(receive->times - reading->times + 1),
              (unsigned long long)receive->times);
    return false;
}

/* Gives the files their names, once all of them are whole. */
static int keep(struct receive *receive) {
    struct output *outputs[] = {&receive->sound.output, &receive->labels, &receive->marks};
    cues_put(&receive->cues, &receive->tail);
    receive->sound.tail = &receive->tail;
    if (receive->sum) receive->sound.sum = receive->sha256;
    int status = sound_done(&receive->sound);
    return status == STATUS_WELL ? outputs_keep(outputs, 3) : status;
}

static void say_cues(const struct receive *receive) {
    if (receive->cues.left_out > 0)
        warnx("%s: %llu more stretch%s missing or damaged than the %zu that cue points show", receive->out_name,
              (unsigned long long)receive->cues.left_out, receive->cues.left_out == 1 ? " is" : "es are", receive->cues.shown);
    if (receive->sound.no_room)
        warnx("%s: so close to 4 GB WAV has no room for cue points or what a sidecar keeps: .rf64 has", receive->out_name);
}

/* What was written: it is said or printed, and judged. */
static int judge(struct receive *receive, enum step last) {
    const struct reading *reading = &receive->reading;
    bool flawed = reading->missing + reading->refused + receive->damaged > 0 || slips_flawed(&reading->slips);
    if (receive->sidecar_name != NULL && !sidecar_agrees(receive)) flawed = true;
    if (receive->sum && !receive->json) sum_print(receive->sha256, receive->out_name);
    receive->out_name = receive->sound.output.name; /* as it is shown */
    if (receive->json) tell_result(receive, last == STEP_BROKEN);
    else if (!receive->quiet) say_summary(receive);
    say_cues(receive);
    slips_say(&reading->slips, reading->name);
    if (!is_length(receive) || receive->frequency.contradicted) flawed = true;
    if (last == STEP_BROKEN) return reading_broken(reading);
    return receive->strict && flawed ? STATUS_NO : STATUS_WELL;
}

static int receive_log(struct receive *receive) {
    int status = open_outputs(receive);
    if (status != STATUS_WELL) return status;
    warn_of_length(receive);
    frequency_find(&receive->frequency, &receive->reading);
    status = sound_begin(&receive->sound, receive->frequency.rate);
    if (status != STATUS_WELL) return status;
    if (receive->sidecar_name != NULL) sidecar_put(receive);
    if (receive->json) tell_begin(receive);
    enum step last = receive_all(receive);
    progress_end();
    if (last == STEP_FAILED) return STATUS_FILE;
    if (receive->unfit != 0) return say_bits(receive);
    status = keep(receive);
    return status == STATUS_WELL ? judge(receive, last) : status;
}

/* The log up to its header, or the sidecar before it. A status; where it isn't well the log isn't open. */
static int begin(struct receive *receive) {
    struct reading *reading = &receive->reading;
    bool quiet = receive->quiet || (receive->json && isatty(STDOUT_FILENO));
    int status = receive->sidecar_name != NULL ? sidecar_begin(receive) : STATUS_WELL;
    if (status == STATUS_WELL) status = reading_open(reading, receive->in_name, quiet);
    reading->slips.off = receive->no_slips;
    if (receive->sidecar_name == NULL) return status == STATUS_WELL ? reading_start(reading) : status;
    if (status == STATUS_WELL) status = reading_twice(reading);
    return status == STATUS_WELL ? sidecar_bits(receive) : status;
}

static void end(struct receive *receive) {
    reading_close(&receive->reading);
    frequency_close(&receive->frequency);
    sound_drop(&receive->sound);
    output_drop(&receive->labels);
    output_drop(&receive->marks);
    kept_free(&receive->sidecar.kept);
    cues_free(&receive->cues);
    tail_free(&receive->tail);
}

int desk_receive(int argc, char **argv) {
    static struct receive receive;
    static const struct argp argp = {
        .options = options,
        .parser = parse,
        .args_doc = "IN.log OUT.wav",
        .doc = "Takes a log and writes its sound, silence where cells are missing. - is standard input, or standard output, into "
               "which WAV is written.",
    };
    argp_parse(&argp, argc, argv, 0, NULL, &receive);
    bool prints = receive.json || receive.sum;
    const char *outputs[] = {receive.out_name, receive.labels_name, receive.marks_name, prints ? "-" : NULL};
    place_apart(receive.in_name, outputs, 4);
    if (receive.sidecar_name != NULL) place_apart(receive.sidecar_name, outputs, 4);
    int status = begin(&receive);
    if (status == STATUS_WELL) {
        status = receive_log(&receive);
        end(&receive);
    }
    if (receive.json && status != EX_USAGE) tell_end(&receive, status);
    return prints ? printed(status) : status;
}
