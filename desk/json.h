/*
 * A document of JSON on standard output, written as it comes, so that it may be of any length. Text is escaped by
 * libjansson.
 *
 * What people name may have octets that aren't UTF-8, and JSON has no place for those. There each of them is U+FFFD,
 * and a second member, whose key ends in _hex, has all octets of the text in hex. So is an octet of zero, which a text
 * of ours can't have.
 */
#ifndef JSON_H
#define JSON_H

#include <jansson.h>

#include "desk.h"

/* In an array a key is NULL. */
void doc_object(const char *key); /* up to doc_end; the first is the document itself */
void doc_line(void);              /* a document in one line */
void doc_array(const char *key);
void doc_end(void);
void doc_number(const char *key, uint64_t number);
void doc_flag(const char *key, bool flag);
void doc_octets(const char *key, const void *octets, size_t count); /* as they came from outside */
void doc_text(const char *key, const char *text);
void doc_refusal(const char *key, unsigned refusal); /* an object: its number and its words */
void doc_broken(uint64_t record, unsigned refusal);  /* the same of a log that is broken there */

/* The same rule for a document that is built: a member for the octets, and a second one where they aren't all text. */
void json_put_octets(json_t *object, const char *key, const void *octets, size_t count);
/* And back: at most `room` of them. -1 where the members aren't such. A member that isn't there is no octet. */
ssize_t json_get_octets(const json_t *object, const char *key, void *to, size_t room);
void json_put_hex(json_t *object, const char *key, const void *octets, size_t count); /* hex alone */
ssize_t json_get_hex(const json_t *object, const char *key, void *to, size_t room);

#endif
