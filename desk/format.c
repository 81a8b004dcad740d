/* What a subframe octet says, as the library has it. */
#include "desk.h"

struct format format_of(uint32_t octet) {
    uint32_t facts[RIME_FORMAT];
    rime_format(octet, facts);
    return (struct format){
        .sample_bits = facts[RIME_FORMAT_SAMPLE_BITS],
        .slots = facts[RIME_FORMAT_SLOTS],
        .ancillary = facts[RIME_FORMAT_ANCILLARY_BITS] != 0,
        .overhead = facts[RIME_FORMAT_OVERHEAD_BITS] != 0,
    };
}
