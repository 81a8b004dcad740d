/* Channel status as EBU Tech 3250 has it: what a block says, and the ancillary numbers that carry it. */
#ifndef STATUS_H
#define STATUS_H

#include "desk.h"

enum { STATUS_BITS = 8 * RIME_STATUS_OCTETS };
enum { STATUS_ORIGIN = 6, STATUS_DESTINATION = 10, STATUS_LETTERS = 4 }; /* octets */

/* The ancillary numbers of a professional block: B in the first, and its bits as C. Letters may be NULL. */
void status_beside(uint8_t beside[STATUS_BITS], unsigned rate, unsigned bits, const char *origin,
                   const char *destination);

/* Whether what rime_status_step hands out is a block whose frequency and word length count: of professional use, its
   check character fits, and it doesn't flag its octets 0 to 5 as unreliable. */
bool status_counts(const uint8_t out[RIME_OUT]);
bool status_flagged(const uint8_t *block); /* octets 0 to 5 are flagged as unreliable */
bool status_codes(unsigned rate);          /* whether there is a code for a sampling frequency */
unsigned status_rate(const uint8_t *block);        /* Hz, 0 where it isn't told */
unsigned status_sample_bits(const uint8_t *block); /* 0 where it isn't told */

#endif
