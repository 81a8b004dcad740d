/* rimesatchel send: packs a sound file into a log. */
#include <argp.h>
#include <err.h>
#include <errno.h>
#include <stdio.h>
#include <stdlib.h>
#include <string.h>
#include <unistd.h>

#include "options.h"
#include "place.h"
#include "sidecar.h"
#include "status.h"

enum { CELLS = 512 };      /* cells made of one buffer of sound */
enum { SECOND_SLOTS = 12 }; /* sequencing bits 9 to 12 are the second number: docs/RULES.md, 3 */

struct send {
    const char *in_name, *out_name, *origin, *destination, *sidecar_name;
    unsigned format, order, number, second;
    bool wanted, asked, without, cut, force, quiet; /* asked, without: channel status, by an option */

    struct sound_in in;
    struct output out, beside_out;
    struct sidecar sidecar;
    struct samples_sum sum;
    struct format about;
    unsigned channels, times, entries;
    uint8_t state[RIME_SENDER_STATE];
    bool status; /* channel status is sent */
    /* ancillary numbers of block after block, channels side by side, for a buffer of sound that begins anywhere in one: zeros
       without status */
    uint8_t beside[(STATUS_BITS + CELLS) * RIME_MOST_SLOTS];
    uint64_t samples[CELLS * RIME_MOST_SLOTS];
    uint64_t frames, cells, filled;

    int *sound;
    uint8_t log[CELLS * RIME_RECORD_OCTETS];
};

static const struct argp_option options[] = {
    {"format", 'f', "OCTET", 0, "subframe format, in hex: 56 where this is left out (24 bits and overhead)", 0},
    {"order", 'o', "0|1", 0, "order of the slots in a cell: 0 where this is left out", 0},
    {"number", 'n', "NUMBER", 0, "number of the first cell, 0 to 15: 0 where this is left out", 0},
    {"second", 's', "START", 0, "keep second numbers from START, 0 to 15, one more in each cell numbered 0 or 8", 0},
    {"blocks", OPTION_BLOCKS, NULL, 0, "the same from 0: an outage of more than 14 cells shows", 0},
    {"status", 'S', NULL, 0, "send channel status, as is done without this where the format has ancillary bits", 0},
    {"no-status", 'N', NULL, 0, "send no channel status: ancillary bits of 0, and no sampling frequency", 0},
    {"origin", 'O', "LETTERS", 0, "up to four letters of origin in the channel status (with it --status)", 0},
    {"destination", 'D', "LETTERS", 0, "up to four letters of destination in the channel status (with it --status)", 0},
    {"cut", 'c', NULL, 0, "drop the low bits of samples that have more bits than the format", 0},
    {"sidecar", 'k', "FILE.json", 0, "keep what a log doesn't carry: bext, tags, cue points, length, the samples' MD5", 0},
    {"force", 'F', NULL, 0, "write over files that are there", 0},
    {"quiet", 'q', NULL, 0, "no bar and no summary", 0},
    {0},
};

static error_t parse(int key, char *word, struct argp_state *state) {
    struct send *send = state->input;
    switch (key) {
    case 'f': send->format = option_number(state, "format", word, 16); break;
    case 'o': send->order = option_number(state, "order", word, 10); break;
    case 'n': send->number = option_number(state, "number", word, 10); break;
    case 's':
        send->wanted = true;
        send->second = option_number(state, "second", word, 10);
        break;
    case OPTION_BLOCKS: send->wanted = true; break;
    case 'O':
        send->asked = true;
        send->origin = option_letters(state, "origin", word);
        break;
    case 'D':
        send->asked = true;
        send->destination = option_letters(state, "destination", word);
        break;
    case 'S': send->asked = true; break;
    case 'N': send->without = true; break;
    case 'c': send->cut = true; break;
    case 'k': send->sidecar_name = word; break;
    case 'F': send->force = true; break;
    case 'q': send->quiet = true; break;
    case ARGP_KEY_SUCCESS:
        if (send->asked && send->without) argp_error(state, "--no-status, and another option sends channel status");
        break;
    default: return option_pair(state, key, word, &send->in_name, &send->out_name);
    }
    return 0;
}

/* The cells of one buffer of sound, into the log; silence fills the last one where the file has ended. A status. */
static int pack_all(struct send *send, size_t frames) {
    size_t given = frames * send->channels, cells = (given + send->entries - 1) / send->entries, count = cells * send->entries;
    unsigned bits = send->about.sample_bits;
    for (size_t at = 0; at < count; at++) {
        uint32_t top = at < given ? (uint32_t)send->sound[at] : 0;
        send->samples[at] = bits > 32 ? (uint64_t)top << (bits - 32) : top >> (32 - bits);
    }
    const uint8_t *ancillary = send->beside + send->cells * send->times % STATUS_BITS * send->channels;
    uint64_t counts[RIME_SENT_LOG];
    unsigned refusal = rime_send_log(send->state, send->wanted, send->samples, count, ancillary, count, send->log,
                                     sizeof send->log, 0, counts);
    if (refusal == RIME_DONE) refusal = (unsigned)counts[RIME_SENT_STOP];
    if (refusal != RIME_DONE) {
        if (send->status && !send->about.ancillary) warnx("this format has no ancillary bits: leave out --status");
        return say_refused(send->in_name, "sending is", refusal);
    }
    send->cells += cells;
    send->filled = (count - given) / send->channels;
    return output_write(&send->out, send->log, counts[RIME_SENT_NEXT]) ? STATUS_WELL : STATUS_FILE;
}

static int open_sender(struct send *send) {
    send->channels = (unsigned)send->in.about.channels;
    unsigned refusal = rime_sender_open(send->format, send->channels, send->order, send->number, send->wanted,
                                        send->second, send->state);
    if (refusal != RIME_DONE)
        return say_settings(send->in_name, "a sender of these settings is", refusal,
                            (struct settings){send->format, send->channels, send->order, send->number, send->second});
    send->about = format_of(send->format);
    send->times = send->about.slots / send->channels;
    send->entries = send->channels * send->times;
    if (send->in.bits > send->about.sample_bits && !send->cut) {
        warnx("%s: samples of %u bits, and format %02X hex has %u: --cut drops the low ones", send->in_name,
              send->in.bits, send->format, send->about.sample_bits);
        return STATUS_REFUSED;
    }
    unsigned bits = send->in.bits < send->about.sample_bits ? send->in.bits : send->about.sample_bits;
    unsigned rate = (unsigned)send->in.about.samplerate;
    send->status = send->asked || (send->about.ancillary && !send->without);
    if (send->status) {
        uint8_t beside[STATUS_BITS];
        status_beside(beside, rate, bits, send->origin, send->destination);
        for (size_t at = 0; at < STATUS_BITS * send->channels + CELLS * send->entries; at++)
            send->beside[at] = beside[at / send->channels % STATUS_BITS];
    }
    if (!status_codes(rate))
        warnx("%s: %u Hz can't be carried in channel status: receive --rate %u", send->in_name, rate, rate);
    return STATUS_WELL;
}

static int put_header(struct send *send) {
    uint64_t next;
    unsigned refusal =
        rime_log_put_header(send->log, sizeof send->log, send->format, send->channels, send->order, &next);
    if (refusal != RIME_DONE) return say_refused(send->out_name, "the header is", refusal);
    output_write(&send->out, send->log, next);
    return STATUS_WELL;
}

static int send_sound(struct send *send) {
    int status = put_header(send);
    sf_count_t frames = 0;
    progress_begin(send->in_name, (uint64_t)send->in.about.frames, send->quiet);
    while (status == STATUS_WELL) {
        frames = sf_readf_int(send->in.file, send->sound, (sf_count_t)CELLS * send->times);
        if (frames <= 0) break;
        send->frames += (uint64_t)frames;
        for (size_t at = 0; send->sidecar_name != NULL && at < (size_t)frames * send->channels; at++)
            samples_sum_put(&send->sum, (uint64_t)(uint32_t)send->sound[at] << 32);
        status = pack_all(send, (size_t)frames);
        progress_at(send->frames);
    }
    progress_end();
    return status == STATUS_WELL ? sound_whole(&send->in, send->frames) : status;
}

/* What the log doesn't carry, in a line. */
static void say_kept(const struct send *send) {
    const struct kept *kept = &send->sidecar.kept;
    char words[KEPT_WORDS];
    bool any = kept_words(kept, words)[0] != '\0', others = kept->others[0] != '\0';
    if (!any && !others) return;
    if (send->sidecar_name == NULL)
        fprintf(stderr, "%s: a log doesn't carry %s%s%s%s\n", send->in_name, words,
                any ? " (--sidecar keeps that)" : "", any && others ? "; nor " : "", kept->others);
    else
        fprintf(stderr, "%s: keeps %s%s%s\n", shown(send->sidecar_name, true), any ? words : "nothing beside the samples",
                others ? "; not kept: " : "", kept->others);
}

static void say_summary(const struct send *send) {
    char length[DURATION];
    fprintf(stderr, "%s: %u channel%s, %d Hz, %u bits, %s\n", send->in_name, send->channels, plural(send->channels),
            send->in.about.samplerate, send->in.bits,
            duration((double)send->frames / send->in.about.samplerate, length));
    fprintf(stderr, "%s: format %02X hex, order %u, %llu cell%s, %s channel status\n", send->out_name, send->format,
            send->order, (unsigned long long)send->cells, plural(send->cells), send->status ? "with" : "without");
    if (!send->status && send->in.about.samplerate != 48000 && status_codes((unsigned)send->in.about.samplerate))
        fprintf(stderr, "%s: doesn't carry the sampling frequency: receive --rate %d\n", send->out_name,
                send->in.about.samplerate);
    if (send->filled > 0)
        fprintf(stderr, "%s: the last cell is filled with %llu sample%s of silence in each channel\n", send->out_name,
                (unsigned long long)send->filled, plural(send->filled));
    if (send->in.bits > send->about.sample_bits)
        fprintf(stderr, "%s: the low %u bits of each sample are dropped\n", send->out_name,
                send->in.bits - send->about.sample_bits);
    if (!send->wanted && send->about.overhead && send->about.slots >= SECOND_SLOTS && isatty(STDERR_FILENO))
        fprintf(stderr, "%s: no second numbers: an outage of more than 14 cells won't show (--blocks)\n", send->out_name);
    say_kept(send);
}

/* The samples, and what stands beside them. */
static void put_sidecar(struct send *send) {
    struct sidecar *sidecar = &send->sidecar;
    if (send->sidecar_name == NULL) return;
    sidecar->channels = send->channels;
    sidecar->rate = (unsigned)send->in.about.samplerate;
    sidecar->bits = send->in.bits;
    sidecar->length = send->frames;
    samples_sum_end(&send->sum, sidecar->md5);
    sidecar_write(sidecar, send->in_name, &send->beside_out);
}

static int open_outputs(struct send *send) {
    int status = output_open(&send->out, send->out_name, send->force);
    if (status == STATUS_WELL && send->sidecar_name != NULL)
        status = output_open(&send->beside_out, send->sidecar_name, send->force);
    if (send->sidecar_name != NULL) samples_sum_begin(&send->sum, send->in.bits);
    if (send->sidecar_name != NULL || !send->quiet) kept_take(&send->sidecar.kept, &send->in);
    send->out_name = shown(send->out_name, true);
    return status;
}

int desk_send(int argc, char **argv) {
    static struct send send = {.format = 0x56};
    static const struct argp argp = {
        .options = options,
        .parser = parse,
        .args_doc = "IN.wav OUT.log",
        .doc = "Packs a sound file into a log. - is standard input, or standard output.",
    };
    argp_parse(&argp, argc, argv, 0, NULL, &send);
    place_apart(send.in_name, (const char *[]){send.out_name, send.sidecar_name}, 2);
    int status = sound_open(&send.in, send.in_name);
    send.in_name = send.in.name;
    if (status != STATUS_WELL) return status;
    status = open_sender(&send);
    if (status == STATUS_WELL) status = open_outputs(&send);
    if (status == STATUS_WELL) {
        send.sound = malloc(sizeof *send.sound * CELLS * send.entries);
        if (send.sound == NULL) err(STATUS_FILE, "%s", send.in_name);
        status = send_sound(&send);
        if (status == STATUS_WELL) put_sidecar(&send);
        if (status == STATUS_WELL || send.out.error != 0)
            status = outputs_keep((struct output *[]){&send.out, &send.beside_out}, 2);
        free(send.sound);
    }
    if (status == STATUS_WELL && !send.quiet) say_summary(&send);
    output_drop(&send.out);
    output_drop(&send.beside_out);
    kept_free(&send.sidecar.kept);
    sf_close(send.in.file);
    return status;
}
