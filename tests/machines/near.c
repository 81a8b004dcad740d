/* The library's functions for the comparison, each of which has the call made elsewhere: by the program far.c, which the command
 * in the environment's RIME_FAR starts, on this machine or on the other one's emulator. build.py writes the functions below this.
 *
 * Above each narrow number stands dirt: no caller has to clear it, by the rules of both machines. */
#include <stdbool.h>
#include <stddef.h>
#include <stdint.h>
#include <stdio.h>
#include <stdlib.h>
#include <sys/socket.h>
#include <unistd.h>

struct word {
    uint64_t number, lent, written;
};

static int far_end(void)
{
    static int ends[2] = {-1, -1};
    const char *command = getenv("RIME_FAR");
    if (ends[0] >= 0) return ends[0];
    if (command == NULL || socketpair(AF_UNIX, SOCK_STREAM, 0, ends) != 0) abort();
    if (fork() == 0) {
        dup2(ends[1], 0);
        dup2(ends[1], 1);
        close(ends[0]);
        close(ends[1]);
        execl("/bin/sh", "sh", "-c", command, (char *)NULL);
        _exit(127);
    }
    close(ends[1]);
    return ends[0];
}

static void move(bool out, void *at, size_t octets)
{
    for (size_t done = 0; done < octets;) {
        char *next = (char *)at + done;
        ssize_t count = out ? write(far_end(), next, octets - done) : read(far_end(), next, octets - done);
        if (count <= 0) {
            fprintf(stderr, "near: %s ended\n", getenv("RIME_FAR"));
            exit(2);
        }
        done += (size_t)count;
    }
}

static uint64_t call(uint64_t function, struct word *words, void **lent, size_t count)
{
    uint64_t head[] = {function, count}, answer;
    move(true, head, sizeof head);
    move(true, words, count * sizeof *words);
    for (size_t i = 0; i < count; i++)
        if (words[i].lent) move(true, lent[i], words[i].number);
    move(false, &answer, sizeof answer);
    for (size_t i = 0; i < count; i++)
        if (words[i].written) move(false, lent[i], words[i].number);
    return answer;
}

/* A number of so few bits, with dirt above it. */
__attribute__((unused)) static uint64_t dirty(uint64_t number, int bits)
{
    static uint64_t dirt = 0x9E3779B97F4A7C15;
    dirt = dirt * 6364136223846793005 + 1442695040888963407;
    return number | (dirt | (uint64_t)1 << 63) >> bits << bits;
}
