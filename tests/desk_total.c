/*
 * The desk tool's sheet over logs whose totals pass 4,294,967,295, so that the library refuses them 19: a piece of more than 1,000
 * octets counts so many sound cells. Such a log has 600 MB at least. Linked with --wrap=rime_figures_take.
 */
#include "desk.h"

uint8_t __real_rime_figures_take(uint64_t state[RIME_FIGURES_STATE], uint8_t held[RIME_RECORD_OCTETS], const uint8_t *piece,
                                 size_t piece_len);
uint8_t __wrap_rime_figures_take(uint64_t state[RIME_FIGURES_STATE], uint8_t held[RIME_RECORD_OCTETS], const uint8_t *piece,
                                 size_t piece_len);

uint8_t __wrap_rime_figures_take(uint64_t state[RIME_FIGURES_STATE], uint8_t held[RIME_RECORD_OCTETS], const uint8_t *piece,
                                 size_t piece_len) {
    uint8_t refusal = __real_rime_figures_take(state, held, piece, piece_len);
    if (piece_len > 1000) state[RIME_FIGURES_COUNTS] = 0x100000000;
    return refusal;
}

int main(int argc, char **argv) {
    return desk_sheet(argc, argv);
}
