/* What was received, in words and in JSON. */
#include <stdio.h>
#include <string.h>

#include "receive.h"

void say_summary(const struct receive *receive) {
    const struct reading *reading = &receive->reading;
    const uint32_t *header = reading->header;
    fprintf(stderr, "%s: format %02X hex, %u channel%s, order %u\n", reading->name, header[RIME_HEADER_FORMAT],
            reading->channels, plural(reading->channels), header[RIME_HEADER_ORDER]);
    fprintf(stderr, "cells: %llu sound, %llu missing in %llu place%s, ", (unsigned long long)reading->sound,
            (unsigned long long)reading->missing, (unsigned long long)reading->gaps, plural(reading->gaps));
    if (reading->slips.cells > 0)
        fprintf(stderr, "%llu more in %llu place%s by second numbers, ", (unsigned long long)reading->slips.cells,
                (unsigned long long)reading->slips.places, plural(reading->slips.places));
    fprintf(stderr, "%llu refused\n", (unsigned long long)reading->refused);
    for (unsigned number = 0; number < 256; number++)
        if (reading->refused_by[number] > 0)
            fprintf(stderr, "  refused %u: %llu, %s\n", number, (unsigned long long)reading->refused_by[number],
                    rime_refusal_text(number));
    if (reading->refused_last > 0)
        fprintf(stderr, "  %llu of them after the last sound cell: no silence stands for them\n",
                (unsigned long long)reading->refused_last);
    char length[DURATION], rate[FREQUENCY_WORDS];
    unsigned long long missing = (reading->missing + reading->slips.cells) * reading->entries;
    fprintf(stderr, "%s: %llu samples a channel, %s at %s%s; %llu sample%s missing, %llu damaged\n", receive->out_name,
            (unsigned long long)receive->times, duration((double)receive->times / receive->frequency.rate, length),
            frequency_words(&receive->frequency, rate),
            frequency_assumed(&receive->frequency) ? " (--rate, if it was another)" : "", missing, plural(missing),
            (unsigned long long)receive->damaged);
    frequency_say(&receive->frequency);
    if (receive->fitting.cut != 0)
        fprintf(stderr, "%s: %llu sample%s lost low bits that weren't 0 (--cut %u)\n", receive->out_name,
                (unsigned long long)receive->fitting.dropped, plural(receive->fitting.dropped), receive->fitting.cut);
    if (receive->sidecar_name != NULL && !receive->differs)
        fprintf(stderr, "%s: the samples are those that %s tells of, by their MD5\n", receive->out_name,
                shown(receive->sidecar_name, false));
    if (!reading->format.overhead)
        fprintf(stderr, "%s: a format without overhead doesn't show what is missing or damaged\n", reading->name);
}

/* Once the log's header is known. The stretches stay open, for those that come. */
void tell_begin(struct receive *receive) {
    const struct reading *reading = &receive->reading;
    const uint32_t *header = reading->header;
    receive->told = true;
    doc_object(NULL);
    doc_text("log", receive->in_name);
    doc_number("format", header[RIME_HEADER_FORMAT]);
    doc_number("channels", header[RIME_HEADER_CHANNELS]);
    doc_number("order", header[RIME_HEADER_ORDER]);
    doc_flag("overhead", reading->format.overhead);
    doc_number("rate", receive->frequency.rate);
    doc_text("rate_by", frequency_by(&receive->frequency));
    doc_array("stretches");
}

void tell_stretch(const struct stretch *stretch) {
    doc_object(NULL);
    doc_text("what", stretch->mark == RIME_MARK_MISSING ? "missing" : "damaged");
    doc_number("from", stretch->from);
    doc_number("past", stretch->past);
    if (stretch->mark == RIME_MARK_DOUBTFUL) {
        doc_array("channels");
        for (unsigned channel = 0; channel < 64; channel++)
            if ((stretch->channels >> channel & 1) != 0) doc_number(NULL, channel + 1);
        doc_end();
    }
    doc_end();
}

static void tell_cells(const struct reading *reading) {
    doc_object("cells");
    doc_number("sound", reading->sound);
    doc_number("missing", reading->missing);
    doc_number("gaps", reading->gaps);
    doc_number("slipped", reading->slips.cells);
    doc_number("slips", reading->slips.places);
    doc_flag("waits", reading->slips.perhaps > 0);
    doc_number("refused", reading->refused);
    doc_number("refused_last", reading->refused_last);
    doc_end();
    doc_array("refusals");
    for (unsigned number = 0; number < 256; number++) {
        if (reading->refused_by[number] == 0) continue;
        doc_object(NULL);
        doc_number("refusal", number);
        doc_number("cells", reading->refused_by[number]);
        doc_text("text", rime_refusal_text(number));
        doc_end();
    }
    doc_end();
}

/* What channel status says. */
static void tell_status(const struct frequency *frequency) {
    doc_object("channel_status");
    doc_array("rates");
    for (unsigned at = 0; at < FREQUENCY_CODES && frequency->named[at].rate != 0; at++)
        doc_number(NULL, frequency->named[at].rate);
    doc_end();
    doc_array("bits");
    for (unsigned bits = 1; bits < 64; bits++)
        if ((frequency->lengths >> bits & 1) != 0) doc_number(NULL, bits);
    doc_end();
    doc_flag("contradicts", frequency->contradicted);
    doc_end();
}

static void tell_sidecar(const struct receive *receive) {
    doc_object("sidecar");
    doc_text("file", receive->sidecar_name);
    doc_text("md5", receive->sidecar.md5);
    doc_flag("agrees", !receive->differs);
    doc_flag("other_bits", receive->other_bits);
    doc_text("not_put", receive->not_put);
    doc_end();
}

void tell_result(const struct receive *receive, bool broken) {
    const struct reading *reading = &receive->reading;
    tell_cells(reading);
    doc_text("output", receive->out_name);
    doc_number("bits", receive->fitting.file_bits);
    doc_number("samples", receive->times);
    doc_number("samples_missing", (reading->missing + reading->slips.cells) * reading->entries);
    doc_number("samples_damaged", receive->damaged);
    if (receive->fitting.cut != 0) doc_number("samples_cut", receive->fitting.dropped);
    if (receive->measured) doc_flag("length_fits", receive->times == receive->length);
    tell_status(&receive->frequency);
    if (receive->cued) {
        doc_number("cues", receive->sound.no_room ? 0 : receive->cues.shown);
        doc_number("cues_left_out", receive->cues.left_out + (receive->sound.no_room ? receive->cues.shown : 0));
    }
    if (receive->sidecar_name != NULL) tell_sidecar(receive);
    if (receive->sum) doc_text("sha256", receive->sha256);
    if (broken) doc_broken(reading->record, reading->refusal);
}

void tell_end(struct receive *receive, int status) {
    if (!receive->told) {
        doc_object(NULL);
        doc_text("log", receive->in_name);
        if (receive->reading.refusal != RIME_DONE && status == STATUS_REFUSED)
            doc_refusal("refused", receive->reading.refusal);
    }
    doc_number("status", (uint64_t)status);
    doc_end();
}
