/* The records of a log in pieces, judged beside its list for what their second numbers tell. */
#include "watched.h"

#include <string.h>

#include "slips.h"

/* Where the first record begins; 0 as long as the header isn't whole, or where it is refused. */
static size_t begin(struct watched *watched) {
    uint32_t header[RIME_HEADER];
    if (rime_log_header(watched->octets, watched->held, header) != RIME_DONE) return 0;
    watched->begun = true;
    watched->slips.off = !format_of(header[RIME_HEADER_FORMAT]).overhead;
    rime_receiver_open(header[RIME_HEADER_FORMAT], header[RIME_HEADER_CHANNELS], header[RIME_HEADER_ORDER], watched->state);
    return header[RIME_HEADER_PLACE];
}

void watched_take(struct watched *watched, const uint8_t *piece, size_t count) {
    watched->judged = watched->seen = 0;
    if (watched->slips.off || count > sizeof watched->octets - watched->held) return; /* the second: behind a fault */
    memcpy(watched->octets + watched->held, piece, count);
    watched->held += count;
    size_t place = watched->begun ? 0 : begin(watched);
    if (!watched->begun || watched->slips.off) return;
    uint64_t counts[RIME_JUDGED_LOG];
    rime_judge_log(watched->state, watched->octets, watched->held, place, watched->reports, sizeof watched->reports, counts);
    watched->judged = counts[RIME_LOG_RECORDS];
    watched->held -= counts[RIME_LOG_NEXT];
    memmove(watched->octets, watched->octets + counts[RIME_LOG_NEXT], watched->held);
}

bool watched_next(struct watched *watched, uint64_t *before) {
    if (watched->seen == watched->judged) return false;
    const uint8_t *report = watched->reports + watched->seen++ * RIME_JUDGEMENT;
    uint64_t record = watched->record++;
    watched->slips.before = 0;
    if (report[RIME_JUDGEMENT_REFUSAL] != RIME_DONE) return true;
    slips_watch(&watched->slips, report + RIME_JUDGEMENT_REPORT);
    *before = watched->last;
    watched->last = record;
    return true;
}
