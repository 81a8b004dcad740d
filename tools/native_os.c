/* What the toolchain's library os has in C: the toolchain has it for x86-64 alone (c/libos_c.a), and here it is for the other
 * machines of tools/native.py. rattle/os/src/c.rt of the toolchain says what each function answers. */
#include <errno.h>
#include <stddef.h>
#include <sys/types.h>

static int count;
static char **words;

/* glibc calls it before main, with main's arguments. */
__attribute__((constructor)) static void keep(int argc, char **argv)
{
    count = argc;
    words = argv;
}

size_t rattle_arg_count(void) { return (size_t)count; }

/* The length of argument I, which is put into ROOM; -1 where there is none, -2 where it doesn't fit, and then the room is full. */
ssize_t rattle_arg(size_t i, char *room, size_t size)
{
    if (i >= (size_t)count || words[i] == NULL)
        return -1;
    size_t length = 0;
    for (; words[i][length] != '\0'; length++) {
        if (length == size)
            return -2;
        room[length] = words[i][length];
    }
    return (ssize_t)length;
}

int rattle_errno(void) { return errno; }

void rattle_set_errno(int error) { errno = error; }
