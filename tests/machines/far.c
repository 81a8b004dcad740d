/* The other end of near.c: a program for either machine, with the library in it and nothing else of C. It makes the calls that it
 * reads from standard input and writes what they left. No header of C is needed, so that the toolchain's clang builds it for both
 * machines without a C library. */
typedef __UINT64_TYPE__ word;

enum { READ, WRITE, EXIT };
#if defined(__x86_64__)
static word system_call(int what, word first, word second, word third)
{
    static const word numbers[] = {0, 1, 60};
    word answer;
    __asm__ volatile("syscall" : "=a"(answer) : "a"(numbers[what]), "D"(first), "S"(second), "d"(third) : "rcx", "r11", "memory");
    return answer;
}
__asm__(".globl _start\n_start: xor %ebp, %ebp\ncall begin\n");
#else
static word system_call(int what, word first, word second, word third)
{
    static const word numbers[] = {63, 64, 93};
    register word x8 __asm__("x8") = numbers[what];
    register word x0 __asm__("x0") = first;
    register word x1 __asm__("x1") = second;
    register word x2 __asm__("x2") = third;
    __asm__ volatile("svc 0" : "+r"(x0) : "r"(x8), "r"(x1), "r"(x2) : "memory");
    return x0;
}
__asm__(".globl _start\n_start: mov x29, xzr\nbl begin\n");
#endif

/* The C functions that the library needs, octet by octet. */
void *memcpy(void *to, const void *from, word count)
{
    for (word i = 0; i < count; i++) ((char *)to)[i] = ((const char *)from)[i];
    return to;
}

void *memmove(void *to, const void *from, word count)
{
    if ((word)to < (word)from) return memcpy(to, from, count);
    for (word i = count; i > 0; i--) ((char *)to)[i - 1] = ((const char *)from)[i - 1];
    return to;
}

void *memset(void *to, int octet, word count)
{
    for (word i = 0; i < count; i++) ((char *)to)[i] = (char)octet;
    return to;
}

static void move(int what, void *at, word octets)
{
    for (word done = 0; done < octets;) {
        word count = system_call(what, what == READ ? 0 : 1, (word)at + done, octets - done);
        if (count == 0 || count > octets) system_call(EXIT, count == 0 && done == 0 ? 0 : 2, 0, 0);
        done += count;
    }
}

/* A word of a call: a number, or a lent run of that many octets. */
struct word {
    word number, lent, written;
};
enum { WORDS = 16 };
typedef word any(word, word, word, word, word, word, word, word, word, word, word, word, word, word, word, word);
extern any *const functions[];
static char room[1 << 28] __attribute__((aligned(16)));

/* Each word goes over whole, whatever the function's own type has of it: so what stands above a narrow number gets there too. */
static word call(any *function, const word *a)
{
    return function(a[0], a[1], a[2], a[3], a[4], a[5], a[6], a[7], a[8], a[9], a[10], a[11], a[12], a[13], a[14], a[15]);
}

__attribute__((used, noreturn)) static void begin(void)
{
    for (;;) {
        word head[2], given[WORDS] = {0}, place = 0;
        struct word words[WORDS];
        move(READ, head, sizeof head);
        if (head[1] > WORDS) system_call(EXIT, 3, 0, 0);
        move(READ, words, head[1] * sizeof *words);
        for (word i = 0; i < head[1]; i++) {
            given[i] = words[i].number;
            if (!words[i].lent) continue;
            if (words[i].number > sizeof room - 16 - place) system_call(EXIT, 4, 0, 0);
            given[i] = (word)room + place;
            move(READ, room + place, words[i].number);
            place = (place + words[i].number + 15) & ~(word)15;
        }
        word answer = call(functions[head[0]], given);
        move(WRITE, &answer, sizeof answer);
        for (word i = 0; i < head[1]; i++)
            if (words[i].written) move(WRITE, (void *)given[i], words[i].number);
    }
}
