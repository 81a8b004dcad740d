/*
 * Capture files, classic ones: the datagrams to a port, and a file of datagrams. pcapng isn't read. What is read stands
 * in the reader's own buffer, and a datagram that is handed out is a place in it, good until the next call.
 */
#ifndef CAPTURE_H
#define CAPTURE_H

#include "desk.h"
#include "line.h"

struct captured {
    const uint8_t *octets;
    size_t count;
    uint64_t came; /* nanoseconds */
    struct address from;
};

struct capture {
    const char *name;
    int fd;
    uint8_t *buffer;
    size_t held, place;
    bool ended;
    uint64_t octets; /* read so far */
    bool big, nano;  /* most significant octet first; times in nanoseconds */
    unsigned link, port;
    const volatile sig_atomic_t *stopped; /* set by a signal: reading from a pipe ends */
    uint64_t passed, part;                /* packets passed over; those of them that were captured in part */
};

enum capture_step { CAPTURE_DATAGRAM, CAPTURE_END, CAPTURE_STOPPED, CAPTURE_CUT, CAPTURE_FAILED };

/* A status; says what is wrong. */
int capture_open(struct capture *capture, const char *name, unsigned port, const volatile sig_atomic_t *stopped);
enum capture_step capture_next(struct capture *capture, struct captured *captured); /* says what is wrong */
void capture_close(struct capture *capture);

/* A datagram to the port in a packet of this link. False where it is none; `part` where it ends before it says it does.
 */
bool capture_find(const uint8_t *packet, size_t count, unsigned link, unsigned port, struct captured *captured,
                  bool *part);

/* Octets of a capture with raw IPv4 packets: its start, and what stands before a datagram that was sent at that time.
 */
enum { CAPTURE_START = 24, CAPTURE_BEFORE = 44 };
void capture_start(uint8_t to[CAPTURE_START]);
void capture_before(uint8_t to[CAPTURE_BEFORE], uint64_t came, unsigned port, size_t count);

#endif
