/* Calls that go through a whole log, in plain C. The log's header is three octets and taken, and there is room for all. */
#ifndef PLAINWALKS_H
#define PLAINWALKS_H

#include <stddef.h>
#include <stdint.h>

/* As rime_anything. */
void plain_anything(const uint8_t *log, size_t length, uint64_t answer[2]);

/* As rime_log_list: how many octets it wrote. */
size_t plain_list(const uint8_t *log, size_t length, char *text, size_t size);

/* As rime_salvage. It goes through the log twice: it knows what it will write before it writes. 21 for too little room. */
unsigned plain_salvage(const uint8_t *log, size_t length, uint8_t *out, size_t out_size, uint64_t *list, size_t list_size,
                       uint64_t counts[3]);

#endif
