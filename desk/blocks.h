/* blocks.c: the channel status blocks of all channels, put together by one call for each. */
#ifndef BLOCKS_H
#define BLOCKS_H

#include "desk.h"

struct blocks {
    uint8_t under[RIME_MOST_SLOTS][RIME_BLOCK]; /* of each channel the block under assembly; all zeros at first */
};

/* A block of a channel, counted from 0, and the sample times up to its last bit. */
typedef void block_taken(void *user, unsigned channel, const uint8_t out[RIME_OUT], uint64_t past);

/* Brings the blocks forward by entries of whole sample times, and hands on those that end, in the order of their ends. */
void blocks_take(struct blocks *blocks, unsigned channels, const uint8_t *ancillary, const uint8_t *marks, size_t given,
                 block_taken *take, void *user);

#endif
