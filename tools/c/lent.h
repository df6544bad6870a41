/* What the test programs over the C library share: buffers with a pattern behind them, and the lines of an answer as fitjob prints them. */
#include "bytes.h"

static const double pattern = 9.25;

static uint64_t pattern_of(double x)
{
    uint64_t pattern;
    memcpy(&pattern, &x, 8);
    return x == x ? pattern : 0x7ff8000000000000U;
}

static void fill(double *buffer, size_t length)
{
    while (length-- > 0)
        buffer[length] = pattern;
}

/* How many of the first numbers are x, bit for bit. */
static size_t alike(const double *buffer, size_t length, double x)
{
    size_t i = 0;
    while (i < length && memcmp(buffer + i, &x, 8) == 0)
        i++;
    return i;
}

/* Whether a buffer is as the header says: its first numbers +0.0 after an accepted call, as lent after a refusal, and the guard whole. */
static int kept(const char *name, const double *buffer, size_t length, int accepted)
{
    size_t first = alike(buffer, length, accepted ? 0.0 : pattern);
    if (first == length && alike(buffer + length, GUARD, pattern) == GUARD)
        return 1;
    printf("%s: place %u of %u is not as it should be\n", name, (unsigned)first, (unsigned)length);
    return 0;
}

static void values(const char *name, const double *first, size_t length)
{
    size_t i;
    for (i = 0; i < length; i++) {
        uint64_t x = pattern_of(first[i]);
        printf("%s %u %08X%08X\n", name, (unsigned)i, (unsigned)(x >> 32), (unsigned)(x & 0xffffffffU));
    }
}

/* The first line of an answer, of its counts in the order of the header; the byte of a refusal is not printed. */
static void first_line(const uint64_t *counts)
{
    static const char *const words[GLMM_COUNTS] = {"end", "order", "disp", "iters", "fits", "solves", "tries", "points",
                                                   NULL, "why", "eta", "mean", "pwrss", "ok"};
    int i;
    for (i = 0; i < GLMM_COUNTS; i++)
        if (words[i] != NULL)
            printf("%s %u%c", words[i], (unsigned)counts[i], i + 1 < GLMM_COUNTS ? ' ' : '\n');
}

/* How deep the stack goes below a caller: `paint` covers it, a call is made, and `depth` finds the lowest byte that was written. Both have the same frame,
 * so their rooms are the same bytes; to the compiler they are seen and written elsewhere. */
#define ROOM 400000
#define PAINT 0x5a
#define SEEN(room) __asm__ __volatile__("" : : "r"(room) : "memory")

__attribute__((noinline)) static void paint(void)
{
    uint8_t room[ROOM];
    memset(room, PAINT, ROOM);
    SEEN(room);
}

__attribute__((noinline)) static size_t depth(void)
{
    uint8_t room[ROOM];
    size_t i = 0;
    SEEN(room);
    while (i < ROOM && room[i] == PAINT)
        i++;
    return ROOM - i;
}

/* A call that is measured, where the program was asked to; the largest depth is kept. */
static int measuring;
static size_t deepest;

#define MEASURED(call) \
    do { \
        if (measuring) \
            paint(); \
        call; \
        if (measuring) { \
            size_t taken = depth(); \
            deepest = taken > deepest ? taken : deepest; \
        } \
    } while (0)
