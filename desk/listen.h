/* Datagrams from a socket, many at a time. */
#ifndef LISTEN_H
#define LISTEN_H

#include <sys/uio.h>

#include "line.h"

enum { LISTEN_BATCH = 64, LISTEN_WRONG_CALL = 64 };

struct listener {
    int fd;
    bool anybody;                          /* who sends isn't looked at */
    struct mmsghdr messages[LISTEN_BATCH]; /* with lengths of what came */
    struct iovec places[LISTEN_BATCH];
    struct sockaddr_storage from[LISTEN_BATCH];
    uint8_t octets[LISTEN_BATCH][WIRE_ROOM + 1]; /* one that fills it is longer than any that is taken */
};

/*
 * A status; says what is wrong. Where the address isn't loopback, everybody could write into the reading: without a
 * word on who may send that is a wrong call.
 */
int listener_open(struct listener *listener, const struct end *at, bool anybody);
int listener_read(struct listener *listener); /* how many came, at most a batch; -1 where the socket fails */
void listener_doze(const struct listener *listener, bool briefly); /* 10 ms; else until one comes, at most 200 ms */
uint64_t listener_dropped(const struct listener *listener);        /* datagrams that the socket had no room for */

#endif
