/*
 * Cells that second numbers tell of, beside those that the numbers do: they are handed out as missing. The library tells of them one
 * cell late, so that a cell before which some may be missing is held until the next one decides.
 */
#include "slips.h"

#include <err.h>
#include <string.h>

void slips_watch(struct slips *slips, const uint8_t report[RIME_REPORT]) {
    uint8_t slip[RIME_SLIPPED];
    rime_slip(slips->watch, report, slip); /* a receiver's own reports are never refused */
    slips->before = slips->perhaps = 0;
    if (slip[RIME_SLIPPED_WHAT] == RIME_SLIP_NOTHING) return;
    if (slip[RIME_SLIPPED_WHAT] == RIME_SLIP_PERHAPS) slips->perhaps = slip[RIME_SLIPPED_CELLS];
    if (slip[RIME_SLIPPED_WHAT] != RIME_SLIP_BEFORE) return;
    slips->before = slip[RIME_SLIPPED_CELLS];
    slips->cells += slips->before;
    slips->places++;
}

static enum step hand(struct reading *reading, const struct entries *entries, size_t given) {
    reading->samples = entries->samples;
    reading->ancillary = entries->ancillary;
    reading->marks = entries->marks;
    reading->given = given;
    return STEP_SOUND;
}

/* Silence for the cells that were told of, as many of them as there is room for. */
static enum step hand_silence(struct reading *reading) {
    static struct entries silence;
    memset(silence.marks, RIME_MARK_MISSING, sizeof silence.marks);
    unsigned most = DESK_ROOM / reading->entries, cells = reading->slips.silence < most ? reading->slips.silence : most;
    reading->slips.silence -= cells;
    return hand(reading, &silence, (size_t)cells * reading->entries);
}

/* The cell that was read last is held. */
static void hold(struct reading *reading, size_t given) {
    struct entries *held = reading->now;
    reading->now = reading->held_back;
    reading->held_back = held;
    reading->slips.given = given;
    reading->slips.stage = SLIPS_HOLDS;
    reading->given = 0;
}

/* What is still to be handed out of the cell that was held and of what came behind it; then the log goes on. */
static enum step hand_rest(struct reading *reading) {
    struct slips *slips = &reading->slips;
    reading->time += reading->given / reading->channels;
    reading->given = 0;
    if (slips->silence > 0) return hand_silence(reading);
    if (slips->stage == SLIPS_DECIDED) {
        slips->stage = SLIPS_NEXT;
        return hand(reading, reading->held_back, slips->given);
    }
    slips->stage = SLIPS_READS;
    if (slips->next != STEP_SOUND) return slips->next;
    if (slips->perhaps == 0) return hand(reading, reading->now, slips->next_given);
    hold(reading, slips->next_given);
    return slips_step(reading);
}

/* Reads on behind the cell that is held: the next cell decides, or the end. */
static enum step decide(struct reading *reading) {
    struct slips *slips = &reading->slips;
    enum step step = reading_step(reading);
    if (step == STEP_REFUSED || step == STEP_FAILED) return step;
    slips->silence = 0;
    if (step == STEP_SOUND) {
        slips_watch(slips, reading->report);
        slips->silence = slips->before;
    }
    slips->next = step;
    slips->next_given = reading->given;
    slips->stage = SLIPS_DECIDED;
    reading->given = 0;
    return hand_rest(reading);
}

enum step slips_step(struct reading *reading) {
    struct slips *slips = &reading->slips;
    if (slips->stage != SLIPS_READS) return slips->stage == SLIPS_HOLDS ? decide(reading) : hand_rest(reading);
    enum step step = reading_step(reading);
    if (step != STEP_SOUND || slips->off) return step;
    slips_watch(slips, reading->report);
    if (slips->perhaps == 0) return step;
    hold(reading, reading->given);
    return decide(reading);
}

bool slips_flawed(const struct slips *slips) { return slips->cells > 0 || slips->perhaps > 0; }

void slips_say(const struct slips *slips, const char *name) {
    if (slips->perhaps > 0)
        warnx("%s: the second number of the last cell is out of step: perhaps %u cells more are missing before it; nothing is put in",
              name, slips->perhaps);
}
