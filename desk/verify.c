/* rimesatchel verify: whether a log carries a sound file, sample for sample. */
#include <argp.h>
#include <err.h>
#include <stdio.h>
#include <stdlib.h>
#include <string.h>
#include <sysexits.h>
#include <unistd.h>

#include "json.h"
#include "options.h"
#include "receive.h"
#include "slips.h"

enum { FRAMES = 4096 }; /* of sound that are read at a time */

struct verify {
    const char *sound_name, *log_name;
    uint64_t from; /* the file's sample at which the log begins */
    bool cut, json, quiet, told, no_slips;

    struct sound_in in;
    struct reading reading;
    struct stretches stretches;
    int *sound; /* frames that were read */
    size_t held, place;
    uint64_t frames; /* of the file, read so far */
    bool ended;

    uint64_t agree, differ, missing, damaged; /* samples */
    unsigned first_channel;                   /* of the first that differs, counted from 1, and its sample */
    uint64_t first_sample;
    uint64_t before;  /* samples a channel that the file goes on after the log's end */
    uint64_t after;   /* that the log goes on after the file's */
    bool after_sound; /* and some of them aren't silence */
};

static const struct argp_option options[] = {
    {"from", 'f', "SAMPLE", 0, "the log begins at this sample of the file, counted from 0", 0},
    {"cut", 'c', NULL, 0, "leave out the low bits for which the format has no room, as send --cut does", 0},
    {"json", 'j', NULL, 0, "print a document of JSON", 0},
    {"no-slips", OPTION_NO_SLIPS, NULL, 0, "put in nothing for cells that only second numbers tell of", 0},
    {"quiet", 'q', NULL, 0, "no bar", 0},
    {0},
};

static error_t parse(int key, char *word, struct argp_state *state) {
    struct verify *verify = state->input;
    switch (key) {
    case 'f': verify->from = option_up_to(state, "from", word, 10, UINT64_MAX / 2); break;
    case 'c': verify->cut = true; break;
    case 'j': verify->json = true; break;
    case OPTION_NO_SLIPS: verify->no_slips = true; break;
    case 'q': verify->quiet = true; break;
    case ARGP_KEY_SUCCESS:
        if (strcmp(verify->sound_name, "-") == 0 && strcmp(verify->log_name, "-") == 0)
            argp_error(state, "the sound and the log can't both come from standard input");
        break;
    default: return option_pair(state, key, word, &verify->sound_name, &verify->log_name);
    }
    return 0;
}

/* The next frame of the file, NULL after its last. */
static const int *next_frame(struct verify *verify) {
    if (verify->place == verify->held && !verify->ended) {
        sf_count_t got = sf_readf_int(verify->in.file, verify->sound, FRAMES);
        verify->held = got > 0 ? (size_t)got : 0;
        verify->place = 0;
        verify->ended = verify->held == 0;
    }
    if (verify->ended) return NULL;
    verify->frames++;
    return verify->sound + verify->place++ * verify->reading.channels;
}

/* One sample of the log, after the file's end: silence fills the last cell. */
static void take_after(struct verify *verify, uint64_t sample, unsigned mark) {
    if (sample != 0 || mark == RIME_MARK_MISSING) verify->after_sound = true;
}

/* One sample of both. Each has its top bit at the top of 64. */
static void take_sample(struct verify *verify, unsigned channel, uint64_t file, uint64_t log, unsigned mark) {
    if (mark == RIME_MARK_MISSING) {
        verify->missing++;
        return;
    }
    if (file == log) {
        verify->agree++;
        return;
    }
    if (verify->differ++ > 0) return;
    verify->first_channel = channel + 1;
    verify->first_sample = verify->frames - 1;
}

static void take(struct verify *verify) {
    const struct reading *reading = &verify->reading;
    unsigned up = 64 - reading->format.sample_bits;
    uint64_t kept = verify->cut ? UINT64_MAX << up : UINT64_MAX;
    for (size_t at = 0; at < reading->given; at += reading->channels) {
        const int *frame = next_frame(verify);
        if (frame == NULL) verify->after++;
        for (unsigned channel = 0; channel < reading->channels; channel++) {
            uint64_t log = reading->samples[at + channel] << up;
            unsigned mark = reading->marks[at + channel];
            if (frame == NULL) take_after(verify, log, mark);
            else take_sample(verify, channel, ((uint64_t)(uint32_t)frame[channel] << 32) & kept, log, mark);
        }
    }
}

/* As receive tells it, in the file's samples. */
static void tell(const struct stretch *stretch, void *user) {
    struct verify *verify = user;
    char line[STRETCH_LINE];
    struct stretch here = *stretch;
    here.from += verify->from;
    here.past += verify->from;
    if (verify->json) tell_stretch(&here);
    else fwrite(line, 1, stretch_label(&here, (unsigned)verify->in.about.samplerate, line), stdout);
}

static enum step compare(struct verify *verify) {
    struct reading *reading = &verify->reading;
    enum step step;
    while ((step = slips_step(reading)) == STEP_SOUND || step == STEP_REFUSED) {
        if (step == STEP_REFUSED) continue;
        struct handed handed = {
            .samples = reading->samples, .marks = reading->marks, .given = reading->given, .time = reading->time};
        take(verify);
        verify->damaged += stretches_take(&verify->stretches, reading->channels, &handed, tell, verify);
    }
    stretches_end(&verify->stretches, tell, verify);
    while (next_frame(verify) != NULL) verify->before++;
    return step;
}

/* The sound that fills the last cell is no difference. */
static bool is_carried(const struct verify *verify) {
    return verify->differ == 0 && verify->missing == 0 && verify->before == 0 && !verify->after_sound &&
           verify->after < verify->reading.times;
}

static uint64_t samples(const struct verify *verify) {
    return verify->agree + verify->differ + verify->missing + verify->before * verify->reading.channels;
}

static void print_result(const struct verify *verify) {
    unsigned long long after = verify->after, before = verify->before;
    if (verify->differ > 0)
        printf("first difference: channel %u, sample %llu\n", verify->first_channel,
               (unsigned long long)verify->first_sample);
    if (before > 0)
        printf("the log ends %llu sample%s a channel before the file: cells are missing after the last one, or before "
               "the first (--from)\n",
               before, plural(before));
    if (verify->after >= verify->reading.times || verify->after_sound)
        printf("the log goes on for %llu sample%s a channel after the file's end%s\n", after, plural(after),
               verify->after_sound ? ", and not with silence" : "");
    if (is_carried(verify)) printf("yes: %llu samples agree\n", (unsigned long long)verify->agree);
    else
        printf("no: %llu of %llu samples agree; %llu different, %llu missing\n", (unsigned long long)verify->agree,
               (unsigned long long)samples(verify), (unsigned long long)verify->differ,
               (unsigned long long)(verify->missing + verify->before * verify->reading.channels));
}

static void tell_result_of(const struct verify *verify, enum step last) {
    doc_flag("carries", is_carried(verify));
    doc_number("samples", samples(verify));
    doc_number("agree", verify->agree);
    doc_number("differ", verify->differ);
    doc_number("missing", verify->missing);
    doc_number("damaged", verify->damaged);
    doc_number("slipped", verify->reading.slips.cells);
    if (verify->differ > 0) {
        doc_object("first_difference");
        doc_number("channel", verify->first_channel);
        doc_number("sample", verify->first_sample);
        doc_end();
    }
    doc_number("ends_before", verify->before);
    doc_number("goes_on", verify->after);
    doc_flag("goes_on_with_sound", verify->after_sound);
    if (last == STEP_BROKEN) doc_broken(verify->reading.record, verify->reading.refusal);
}

static void begin_document(struct verify *verify) {
    verify->told = true;
    doc_object(NULL);
    doc_text("sound", verify->sound_name);
    doc_text("log", verify->log_name);
    doc_number("from", verify->from);
}

/* Goes to the sample at which the log begins. A status. */
static int skip(struct verify *verify) {
    while (verify->frames < verify->from)
        if (next_frame(verify) == NULL) {
            if (sound_whole(&verify->in, verify->frames) != STATUS_WELL) return STATUS_FILE;
            warnx("%s: --from %llu, and it has %llu samples a channel", verify->in.name,
                  (unsigned long long)verify->from, (unsigned long long)verify->frames);
            return EX_USAGE;
        }
    return STATUS_WELL;
}

static int verify_channels(struct verify *verify) {
    unsigned log = verify->reading.channels, file = (unsigned)verify->in.about.channels;
    if (log == file) return STATUS_WELL;
    if (verify->json) {
        begin_document(verify);
        doc_flag("carries", false);
        doc_number("channels", log);
        doc_number("sound_channels", file);
    } else printf("no: the log has %u channel%s, and the file %u\n", log, plural(log), file);
    return STATUS_NO;
}

static int verify_log(struct verify *verify) {
    struct reading *reading = &verify->reading;
    int status = verify_channels(verify);
    if (status != STATUS_WELL) return status;
    verify->sound = malloc(FRAMES * reading->channels * sizeof *verify->sound);
    if (verify->sound == NULL) err(STATUS_FILE, "%s", verify->in.name);
    status = skip(verify);
    if (status != STATUS_WELL) return status;
    if (verify->json) {
        begin_document(verify);
        doc_array("stretches");
    }
    enum step last = compare(verify);
    progress_end();
    if (verify->json) doc_end();
    if (last == STEP_FAILED || sound_whole(&verify->in, verify->frames) != STATUS_WELL) return STATUS_FILE;
    slips_say(&reading->slips, reading->name);
    if (verify->json) tell_result_of(verify, last);
    else print_result(verify);
    if (last == STEP_BROKEN) return reading_broken(reading);
    return is_carried(verify) ? STATUS_WELL : STATUS_NO;
}

int desk_verify(int argc, char **argv) {
    static struct verify verify;
    static const struct argp argp = {
        .options = options,
        .parser = parse,
        .args_doc = "SOUND LOG",
        .doc = "Answers whether a log carries a sound file, sample for sample: yes, or what is missing, the first "
               "difference, and no. - is standard input.",
    };
    argp_parse(&argp, argc, argv, 0, NULL, &verify);
    int status = sound_open(&verify.in, verify.sound_name);
    if (status == STATUS_WELL) {
        status = reading_begin(&verify.reading, verify.log_name, verify.quiet || isatty(STDOUT_FILENO));
        if (verify.no_slips) verify.reading.slips.off = true;
        if (status == STATUS_WELL) {
            status = verify_log(&verify);
            reading_close(&verify.reading);
        }
        sf_close(verify.in.file);
        free(verify.sound);
    }
    if (verify.json && status != EX_USAGE) {
        if (!verify.told) {
            begin_document(&verify);
            if (status == STATUS_REFUSED) doc_refusal("refused", verify.reading.refusal);
        }
        doc_number("status", (uint64_t)status);
        doc_end();
    }
    return printed(status);
}
