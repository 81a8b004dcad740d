/* Logs to measure on, made by the proved sender. */
#ifndef LOGS_H
#define LOGS_H

#include <stddef.h>
#include <stdint.h>

#include "formats.h"

enum { HEADER_OCTETS = 3, RECORD_OCTETS = 49 };

/*
 * Writes a log of so many records: HEADER_OCTETS and RECORD_OCTETS for each. The samples are made up. Of each 1,024 cells one is
 * lost, three in a row are lost, one comes twice, one has a spoiled number and one a spoiled sample, as far as the format shows it.
 */
void make_log(const struct format *format, uint8_t channels, uint8_t order, size_t records, uint8_t *log);

/* The same without any loss, all samples and ancillary bits zero. */
void make_silence(const struct format *format, uint8_t channels, uint8_t order, size_t records, uint8_t *log);

/* How many octets that is. */
static inline size_t log_octets(size_t records) { return HEADER_OCTETS + records * RECORD_OCTETS; }

#endif
