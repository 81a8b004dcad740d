/* Datagrams from a socket. */
#include "listen.h"

#include <err.h>
#include <errno.h>
#include <linux/sock_diag.h>
#include <netinet/in.h>
#include <poll.h>
#include <string.h>
#include <time.h>

#include "desk.h"

enum { ROOM = 4 << 20, DOZE = 10000000, LOOK = 200 }; /* octets, nanoseconds, milliseconds */

/* For what comes while the disk keeps us waiting. */
static void take_room(const struct listener *listener) {
    int room = ROOM, got = 0;
    socklen_t size = sizeof got;
    if (setsockopt(listener->fd, SOL_SOCKET, SO_RCVBUFFORCE, &room, sizeof room) != 0)
        setsockopt(listener->fd, SOL_SOCKET, SO_RCVBUF, &room, sizeof room);
    getsockopt(listener->fd, SOL_SOCKET, SO_RCVBUF, &got, &size);
    if (got / 2 < ROOM) /* the system says twice what it was asked for */
        warnx("the socket's buffer is %d octets and not %d: sysctl net.core.rmem_max", got / 2, ROOM);
}

static int bind_to(struct listener *listener, const struct end *at, const struct addrinfo *found) {
    int one = 1;
    listener->fd = socket(found->ai_family, SOCK_DGRAM | SOCK_CLOEXEC, 0);
    if (found->ai_family == AF_INET6) setsockopt(listener->fd, IPPROTO_IPV6, IPV6_V6ONLY, &one, sizeof one);
    if (listener->fd < 0 || bind(listener->fd, found->ai_addr, found->ai_addrlen) != 0) {
        warn("%s, port %u", at->host, at->port);
        return STATUS_FILE;
    }
    take_room(listener);
    return STATUS_WELL;
}

int listener_open(struct listener *listener, const struct end *at, bool anybody) {
    struct addrinfo *found = line_find(at);
    if (found == NULL) return STATUS_FILE;
    struct sockaddr_storage here = {0};
    memcpy(&here, found->ai_addr, found->ai_addrlen);
    struct address address = address_of(&here);
    int status = LISTEN_WRONG_CALL;
    listener->anybody = anybody;
    if (anybody && !address_is_home(&address))
        warnx("--listen: %s isn't loopback, and everybody could write into the reading: --from HOST", at->host);
    else status = bind_to(listener, at, found);
    freeaddrinfo(found);
    return status;
}

int listener_read(struct listener *listener) {
    for (int at = 0; at < LISTEN_BATCH; at++) {
        listener->places[at] = (struct iovec){listener->octets[at], sizeof listener->octets[at]};
        struct msghdr *header = &listener->messages[at].msg_hdr;
        *header = (struct msghdr){.msg_iov = &listener->places[at], .msg_iovlen = 1};
        if (listener->anybody) continue;
        header->msg_name = &listener->from[at];
        header->msg_namelen = sizeof listener->from[at];
    }
    int came = recvmmsg(listener->fd, listener->messages, LISTEN_BATCH, MSG_DONTWAIT, NULL);
    if (came >= 0) return came;
    return errno == EAGAIN || errno == EINTR ? 0 : -1;
}

void listener_doze(const struct listener *listener, bool briefly) {
    struct timespec little = {0, DOZE};
    struct pollfd wait = {listener->fd, POLLIN, 0};
    if (briefly) nanosleep(&little, NULL);
    else poll(&wait, 1, LOOK);
}

/* The counter that SO_RXQ_OVFL hands out with the next datagram: asked for here, it has those behind the last one too.
 */
uint64_t listener_dropped(const struct listener *listener) {
    uint32_t about[SK_MEMINFO_VARS] = {0};
    socklen_t room = sizeof about;
    return getsockopt(listener->fd, SOL_SOCKET, SO_MEMINFO, about, &room) == 0 ? about[SK_MEMINFO_DROPS] : 0;
}
