/* What record tells. */
#include "told.h"

#include <stdio.h>

static bool drawn; /* a line stands on the terminal, and the next one goes over it */

typedef unsigned long long count; /* as printf takes it */

void told_clear(void) {
    if (drawn) fputs("\r\033[K", stderr);
    drawn = false;
}

static double seconds(uint64_t nanoseconds) {
    return (double)nanoseconds / 1e9;
}

static void draw(const struct told *told, uint64_t now) {
    const struct recording *recording = told->recording;
    char time[DURATION];
    double passed = seconds(now - told->since), off = now > recording->last ? seconds(now - recording->last) : 0;
    double silent = (double)recording->silent / recording->rate;
    told_clear();
    fprintf(stderr, "%s: %.0f cells/s, %llu sound, %llu missing, %llu refused, %llu damaged",
            duration(seconds(now - recording->begun), time),
            passed > 0 ? (double)(recording->cells - told->cells) / passed : 0, (count)recording->sound,
            (count)recording->missing, (count)recording->refused, (count)recording->damaged);
    if (off >= 1) fprintf(stderr, ", NO CELL for %.0f s", off);
    else if (silent >= 1) fprintf(stderr, ", nothing but silence for %.0f s", silent);
    if (!told->terminal) fputc('\n', stderr);
    drawn = told->terminal;
    fflush(stderr);
}

void told_at(struct told *told, uint64_t now) {
    if (told->every == 0 || now < told->next) return;
    draw(told, now);
    told->next = now + told->every;
    told->since = now;
    told->cells = told->recording->cells;
}

static uint64_t not_taken(const struct told *told) {
    uint64_t sum = told->order->disbelieved;
    for (unsigned why = 0; why < WIRE_KINDS; why++) sum += told->recording->not_taken[why];
    return sum;
}

static void say_refused_by(const struct recording *recording) {
    for (unsigned number = 0; number < 256; number++)
        if (recording->refused_by[number] > 0)
            fprintf(stderr, "  refused %u: %llu, %s\n", number, (count)recording->refused_by[number],
                    rime_refusal_text(number));
    if (recording->refused_by[RIME_REFUSED_INDICATED] * 10 > recording->cells)
        fprintf(stderr, "  another maker's sender? see DESK.md\n");
}

static void say_datagrams(const struct told *told) {
    const struct order *order = told->order;
    fprintf(stderr, "datagrams: %llu lost, %llu late, %llu repeated", (count)told->recording->lost, (count)order->late,
            (count)order->repeated);
    if (told->dropped > 0) fprintf(stderr, ", %llu dropped in this machine's socket", (count)told->dropped);
    fprintf(stderr, "; %llu not taken\n", (count)not_taken(told));
    for (unsigned why = 0; why < WIRE_KINDS; why++) {
        uint64_t number = why == WIRE_FAR ? order->disbelieved : told->recording->not_taken[why];
        if (number > 0) fprintf(stderr, "  %llu %s\n", (count)number, wire_words(why));
    }
}

void told_summary(const struct told *told) {
    const struct recording *recording = told->recording;
    const struct settings *settings = &recording->settings;
    char length[DURATION], silence[DURATION];
    fprintf(stderr, "%s: format %02X hex, %u channel%s, order %u, %u log%s\n", recording->name, settings->format,
            settings->channels, plural(settings->channels), settings->order, recording->logs, plural(recording->logs));
    fprintf(stderr, "cells: %llu sound, %llu missing in %llu place%s, %llu refused\n", (count)recording->sound,
            (count)recording->missing, (count)recording->gaps, plural(recording->gaps), (count)recording->refused);
    say_refused_by(recording);
    say_datagrams(told);
    fprintf(stderr, "%s: %llu samples a channel, %s at %u Hz; %llu damaged; the longest silence is %s\n",
            recording->name, (count)recording->time, duration((double)recording->time / recording->rate, length),
            recording->rate, (count)recording->damaged, duration(recording_silence(recording), silence));
}

static bool is_over(const struct recording *recording, uint64_t allowed) {
    unsigned __int128 missing = recording->missing, all = missing + recording->sound;
    return missing * 1000000 > allowed * all;
}

/* Why the answer is a no; false where it is a yes. */
static bool is_no(const struct told *told, char *words, size_t room) {
    const struct recording *recording = told->recording;
    const struct demands *demands = &told->demands;
    uint64_t turned = recording->refused - recording->refused_by[RIME_REFUSED_REPEAT];
    double sound = (double)(recording->sound * recording->times) / recording->rate;
    if (recording->cells == 0) snprintf(words, room, "no cell came");
    else if (recording->sound == 0)
        snprintf(words, room, "the receiver took none of %llu cells", (count)recording->cells);
    else if (recording->heard == 0) snprintf(words, room, "nothing but silence came");
    else if (sound < seconds(demands->least))
        snprintf(words, room, "%.3f s of sound are less than --least %g", sound, seconds(demands->least));
    else if (demands->is_silence && recording_silence(recording) > seconds(recording->silence))
        snprintf(words, room, "a silence of %.3f s is over --silence %g", recording_silence(recording),
                 seconds(recording->silence));
    else if (recording->cuts > 0) snprintf(words, room, "the reading is in %u pieces", recording->cuts + 1);
    else if (recording->past_pieces > 0 || recording->unplaced > 0)
        snprintf(words, room, "cells may stand in a wrong place");
    else if (demands->is_allowed && is_over(recording, demands->allowed))
        snprintf(words, room, "%llu cells are missing, more than --allow %llu in a million", (count)recording->missing,
                 (count)demands->allowed);
    else if (demands->is_allowed) return false;
    else if (recording->missing > 0) snprintf(words, room, "%llu cells are missing", (count)recording->missing);
    else if (recording->lost > 0) snprintf(words, room, "%llu datagrams were lost", (count)recording->lost);
    else if (told->dropped > 0)
        snprintf(words, room, "%llu datagrams were dropped in this machine's socket", (count)told->dropped);
    else if (turned > 0) snprintf(words, room, "%llu cells were refused", (count)turned);
    else if (recording->damaged > 0) snprintf(words, room, "%llu samples are damaged", (count)recording->damaged);
    else return false;
    return true;
}

int told_answer(const struct told *told, int status) {
    char words[128];
    if (status != STATUS_WELL || !is_no(told, words, sizeof words)) return status;
    fprintf(stderr, "NO: %s\n", words);
    return STATUS_NO;
}

void told_line(const struct told *told, int status) {
    const struct recording *recording = told->recording;
    printf(
        "cells=%llu sound=%llu missing=%llu refused=%llu damaged=%llu silent_s=%.3f lost=%llu late=%llu repeated=%llu "
        "dropped=%llu not_taken=%llu pieces=%u status=%d\n",
        (count)recording->cells, (count)recording->sound, (count)recording->missing, (count)recording->refused,
        (count)recording->damaged, recording_silence(recording), (count)recording->lost, (count)told->order->late,
        (count)told->order->repeated, (count)told->dropped, (count)not_taken(told), recording->logs, status);
}
