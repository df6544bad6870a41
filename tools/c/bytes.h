/* What the programs over the C library share: the bytes of a job. */
#include <stdio.h>
#include <string.h>

#include "glmm.h"

#define GUARD 16 /* numbers behind a buffer that no call may touch */
static uint8_t job[65537];

/* A field of the job; what is cut short reads as zero bits. */
static unsigned bits(size_t length, size_t at, unsigned width)
{
    unsigned value = 0;
    for (; width > 0; width--, at++)
        value = 2 * value + (at / 8 < length ? (job[at / 8] >> (7 - at % 8)) & 1U : 0);
    return value;
}

static size_t read_file(const char *name, void *to, size_t size, size_t count)
{
    FILE *file = fopen(name, "rb");
    size_t length = file == NULL ? 0 : fread(to, size, count, file);
    if (file != NULL)
        fclose(file);
    return length;
}
