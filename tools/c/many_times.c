/* usage: many_times ROUNDS (FILE N P Q Y)..
 * A job of N responses, P columns and Q effects, whose responses begin at byte Y. The time of 64 responses on a job's design by one call of glmm_fit_many, and by 64 calls of glmm_fit_job with jobs that are packed before; the responses are the
 * job's own, each begun at another place. Both must give the same bits. For each job a line `job FILE ORDER`, then a line for each round: the nanoseconds of
 * the one call and of the 64 calls, of a call that is refused with 7, behind the reading, and of one that is refused with 4, behind the reading and all tests of
 * the table but that of the range. Both sides take turns; a round goes through all the jobs. Times are the process's own. */
#define _POSIX_C_SOURCE 199309L
#include <stdio.h>
#include <stdlib.h>
#include <string.h>
#include <time.h>

#include "glmm.h"

enum { MANY = GLMM_MOST_MANY, MOST_N = 512, LONGEST = 65536, WORDS = 5 };
static uint8_t job[LONGEST], jobs[MANY][LONGEST], bad[LONGEST];
static double responses[MANY * MOST_N], rows[GLMM_MOST_ROWS], matrices[GLMM_MOST_MATRICES], terms[GLMM_TERMS];
static double together[MANY * GLMM_MOST_RESULTS], apart[MANY * GLMM_MOST_RESULTS];
static uint64_t counts_together[MANY * GLMM_COUNTS], counts_apart[MANY * GLMM_COUNTS];
static size_t length, n, p, q, block, y_at;

/* Whether a job is there, and holds its responses. */
static int load(char **words)
{
    FILE *file = fopen(words[0], "rb");
    length = file == NULL ? 0 : fread(job, 1, sizeof job, file);
    if (file != NULL)
        fclose(file);
    n = strtoul(words[1], NULL, 10), p = strtoul(words[2], NULL, 10), q = strtoul(words[3], NULL, 10), y_at = strtoul(words[4], NULL, 10);
    block = glmm_results_length(n, p, q);
    return block > 0 && y_at + 8 * n < length;
}

/* The 64 responses, as numbers and in 64 jobs; and a job whose link is none of its family's. */
static void prepare(void)
{
    size_t lot, i, j;
    uint64_t number;
    for (lot = 0; lot < MANY; lot++) {
        memcpy(jobs[lot], job, length);
        for (i = 0; i < n; i++) {
            const uint8_t *from = job + y_at + 8 * ((i + lot) % n);
            memcpy(jobs[lot] + y_at + 8 * i, from, 8);
            for (number = 0, j = 0; j < 8; j++)
                number = number << 8 | from[j];
            memcpy(responses + lot * n + i, &number, 8);
        }
    }
    memcpy(bad, job, length);
    if ((job[0] >> 2 & 3) == GLMM_BINOMIAL)
        bad[0] = (bad[0] & 0xfc) | GLMM_SQRT >> 1, bad[1] = (bad[1] & 0x7f) | (GLMM_SQRT & 1) << 7;
    else
        bad[0] = bad[0] & 0xfc, bad[1] = bad[1] & 0x7f;
}

static uint64_t one_call(void)
{
    return glmm_fit_many(job, length, responses, MANY * n, MANY, rows, glmm_rows_length(n), matrices, glmm_matrices_length(p, q), terms, GLMM_TERMS, together,
                         MANY * block, counts_together, MANY * GLMM_COUNTS);
}

static uint64_t single(const uint8_t *bytes, size_t lot, size_t of_rows)
{
    return glmm_fit_job(bytes, length, rows, of_rows, matrices, glmm_matrices_length(p, q), terms, GLMM_TERMS, apart + lot * block, block,
                        counts_apart + lot * GLMM_COUNTS, GLMM_COUNTS);
}

static uint64_t many_calls(void)
{
    uint64_t returned = 0;
    size_t lot;
    for (lot = 0; lot < MANY; lot++)
        returned |= single(jobs[lot], lot, glmm_rows_length(n));
    return returned;
}

static uint64_t reading(void)
{
    return single(job, 0, 0);
}

static uint64_t tested(void)
{
    return single(bad, 0, glmm_rows_length(n));
}

static double now(void)
{
    struct timespec time;
    clock_gettime(CLOCK_PROCESS_CPUTIME_ID, &time);
    return (double)time.tv_sec * 1e9 + (double)time.tv_nsec;
}

/* The nanoseconds of a call, which must return what is wanted; short ones are repeated. */
static double timed(uint64_t (*call)(void), uint64_t wanted, int times)
{
    double start = now();
    int i;
    for (i = 0; i < times; i++)
        if (call() != wanted)
            fputs("many_times: another answer than was wanted\n", stderr), exit(1);
    return (now() - start) / times;
}

static int same(void)
{
    memset(together, 0, sizeof together), memset(apart, 0, sizeof apart);
    return one_call() == 0 && many_calls() == 0 && memcmp(together, apart, sizeof apart) == 0 && memcmp(counts_together, counts_apart, sizeof counts_apart) == 0;
}

/* A round of one job: who begins is another one each time. */
static void put_round(const char *name, int round)
{
    double one = round % 2 ? timed(one_call, 0, 1) : 0, calls = timed(many_calls, 0, 1);
    one = round % 2 ? one : timed(one_call, 0, 1);
    printf("%s %.1f %.1f %.1f %.1f\n", name, one, calls, timed(reading, 7, MANY), timed(tested, 4, MANY));
}

int main(int count, char **words)
{
    int i, round, rounds = count >= 2 + WORDS ? atoi(words[1]) : 0;
    if (rounds < 1 || (count - 2) % WORDS != 0) {
        fputs("usage: many_times ROUNDS (FILE N P Q Y)..\n", stderr);
        return 2;
    }
    for (round = 0; round <= rounds; round++)
        for (i = 2; i < count; i += WORDS) {
            if (!load(words + i) || (prepare(), round == 0 && !same())) {
                printf("%s: no such job, or other bits\n", words[i]);
                return 1;
            }
            if (round == 0)
                printf("job %s %u\n", words[i], (unsigned)counts_together[GLMM_ORDER]);
            else
                put_round(words[i], round);
        }
    return 0;
}
