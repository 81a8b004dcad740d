/* What play and record are told of the line: the circuit on it, and addresses. */
#ifndef LINE_H
#define LINE_H

#include <argp.h>
#include <netdb.h>
#include <sys/socket.h>

#include "wire.h"

uint32_t option_label(const struct argp_state *state, const char *word);
void option_circuit(const struct argp_state *state, const char *word, struct circuit *circuit);

/* HOST:PORT, with an IPv6 address in brackets. */
struct end {
    char host[256]; /* empty where none is given */
    unsigned port;
};
enum { OPTION_HOST, OPTION_PORT }; /* what a word without a colon is */
struct end option_end(const struct argp_state *state, const char *name, const char *word, int alone);

/* The addresses that the end has: to be freed by freeaddrinfo. NULL where there are none; that is said. */
struct addrinfo *line_find(const struct end *end);

/* An address alone: 4 or 16 octets. */
struct address {
    unsigned count;
    uint8_t octets[16];
};
struct address address_of(const struct sockaddr_storage *socket);
bool address_is_home(const struct address *address); /* it is loopback */

/* All addresses of a host: who may send. */
enum { LINE_SENDERS = 32 };
struct senders {
    bool any; /* no host is named: who sends isn't looked at */
    unsigned count;
    struct address addresses[LINE_SENDERS];
};
int senders_find(struct senders *senders, const char *host); /* a status; says what is wrong */
bool senders_have(const struct senders *senders, const struct address *address);

#endif
