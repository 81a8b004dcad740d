/* The channel status blocks of all channels, put together by one call for each. */
#include "blocks.h"

void blocks_take(struct blocks *blocks, unsigned channels, const uint8_t *ancillary, const uint8_t *marks, size_t given,
                 block_taken *take, void *user) {
    uint8_t out[RIME_MOST_SLOTS][RIME_OUT];
    uint64_t next[RIME_MOST_SLOTS];
    for (unsigned channel = 0; channel < channels; channel++)
        rime_status_run(blocks->under[channel], ancillary, given, marks, given, channel, channels, out[channel], &next[channel]);
    for (;;) {
        unsigned first = channels; /* the channel whose block ended first */
        for (unsigned channel = 0; channel < channels; channel++)
            if (out[channel][RIME_OUT_ANSWER] != RIME_STATUS_NONE && (first == channels || next[channel] < next[first]))
                first = channel;
        if (first == channels) return;
        take(user, first, out[first], next[first] / channels);
        rime_status_run(blocks->under[first], ancillary, given, marks, given, next[first], channels, out[first], &next[first]);
    }
}
