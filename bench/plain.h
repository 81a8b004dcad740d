/* The baseline of the benchmark: rime_send, rime_receive, the AES3 cable's and the data units' calls once more, in plain C. */
#ifndef PLAIN_H
#define PLAIN_H

#include <stdbool.h>
#include <stddef.h>
#include <stdint.h>

uint8_t plain_send(uint8_t state[7], bool indication, const uint64_t *samples, size_t samples_len,
                   const uint8_t *ancillary, size_t ancillary_len, uint8_t *cell, size_t cell_len);
uint8_t plain_receive(uint8_t state[9], const uint8_t *cell, size_t cell_len, bool indication,
                      uint64_t *samples, size_t samples_len, uint8_t *ancillary, size_t ancillary_len,
                      uint8_t *marks, size_t marks_len, uint8_t report[4]);
uint8_t plain_aes3_import(const uint8_t preambles[2], const uint32_t subframes[2], uint64_t samples[2],
                          uint8_t ancillary[2]);
uint8_t plain_aes3_export(const uint64_t samples[2], const uint8_t ancillary[2], uint8_t preambles[2],
                          uint32_t subframes[2]);
uint8_t plain_units_export(uint32_t octet, uint32_t channels, size_t size, const uint64_t *samples, size_t samples_len,
                           const uint8_t *ancillary, size_t ancillary_len, uint8_t *out, size_t out_len,
                           uint64_t units[3]);
uint8_t plain_unit_read(uint32_t octet, uint32_t channels, const uint8_t *unit, size_t unit_len, uint64_t *samples,
                        size_t samples_len, uint8_t *ancillary, size_t ancillary_len, uint64_t *entries);

#endif
