/*
 * The least that a recorder can do, to compare its cost with: datagrams in, octets out. It reads what has come, and
 * sleeps 10 ms.
 *
 *   line_plain take PORT OUT SECONDS       until none came for so long
 *   line_plain blast CAPTURE PORT TIMES    the datagrams of a capture as play writes it, as fast as they go, with new
 * numbers
 *
 * Both print the processor time that they took, in seconds.
 */
#include <arpa/inet.h>
#include <err.h>
#include <fcntl.h>
#include <poll.h>
#include <stdbool.h>
#include <stdio.h>
#include <stdlib.h>
#include <string.h>
#include <sys/mman.h>
#include <sys/socket.h>
#include <sys/stat.h>
#include <sys/uio.h>
#include <time.h>
#include <unistd.h>

enum { BATCH = 64, ROOM = 4 << 20, START = 24, PACKET = 16, BEFORE = 28 };

static struct sockaddr_in end(const char *port) {
    struct sockaddr_in end = {.sin_family = AF_INET, .sin_port = htons((uint16_t)atoi(port))};
    end.sin_addr.s_addr = htonl(INADDR_LOOPBACK);
    return end;
}

static void take(int in, int out, int seconds) {
    static char octets[BATCH][2048];
    static struct mmsghdr messages[BATCH];
    static struct iovec places[BATCH];
    for (;;) {
        struct pollfd wait = {in, POLLIN, 0};
        if (poll(&wait, 1, seconds * 1000) == 0) return;
        for (int at = 0; at < BATCH; at++) {
            places[at] = (struct iovec){octets[at], sizeof octets[at]};
            messages[at].msg_hdr = (struct msghdr){.msg_iov = &places[at], .msg_iovlen = 1};
        }
        int came = recvmmsg(in, messages, BATCH, MSG_DONTWAIT, NULL);
        for (int at = 0; at < came; at++) places[at].iov_len = messages[at].msg_len;
        if (came > 0 && writev(out, places, came) < 0) err(3, "write");
        struct timespec little = {0, 10000000};
        if (came < BATCH) nanosleep(&little, NULL);
    }
}

static void blast(int out, const char *name, int times) {
    int fd = open(name, O_RDONLY);
    struct stat about;
    if (fd < 0 || fstat(fd, &about) != 0) err(3, "%s", name);
    uint8_t *octets = mmap(NULL, (size_t)about.st_size, PROT_READ | PROT_WRITE, MAP_PRIVATE, fd, 0);
    uint16_t sequence = 0;
    for (int time = 0; time < times; time++)
        for (size_t at = START; at < (size_t)about.st_size;) {
            uint32_t count;
            memcpy(&count, octets + at + 8, 4);
            uint8_t *datagram = octets + at + PACKET + BEFORE;
            sequence = sequence == 65535 ? 1 : sequence + 1;
            datagram[6] = (uint8_t)(sequence >> 8);
            datagram[7] = (uint8_t)sequence;
            send(out, datagram, count - BEFORE, 0);
            at += PACKET + count;
        }
}

int main(int argc, char **argv) {
    if (argc != 5) errx(64, "usage: line_plain take PORT OUT SECONDS | blast CAPTURE PORT TIMES");
    int room = ROOM, line = socket(AF_INET, SOCK_DGRAM, 0);
    bool taking = strcmp(argv[1], "take") == 0;
    struct sockaddr_in there = end(taking ? argv[2] : argv[3]);
    if (taking) {
        int out = open(argv[3], O_WRONLY | O_CREAT | O_TRUNC, 0666);
        setsockopt(line, SOL_SOCKET, SO_RCVBUF, &room, sizeof room);
        if (out < 0 || bind(line, (struct sockaddr *)&there, sizeof there) != 0) err(3, "%s", argv[3]);
        take(line, out, atoi(argv[4]));
    } else {
        if (connect(line, (struct sockaddr *)&there, sizeof there) != 0) err(3, "connect");
        blast(line, argv[2], atoi(argv[4]));
    }
    struct timespec took;
    clock_gettime(CLOCK_PROCESS_CPUTIME_ID, &took);
    printf("%.4f\n", (double)took.tv_sec + (double)took.tv_nsec / 1e9);
    return 0;
}
