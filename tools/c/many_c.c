/* usage: many_c responses FILE..
 *        many_c deep FILE..
 *        many_c edges JOB
 * glmm_fit_many on many inputs of fitmany (a job's length in three bytes, the job, responses), printing for each what fitmany prints, after a line `job FILE`.
 * Every buffer is lent exactly as long as it must be, with a pattern behind it; a pattern that changed, the block of a response that ended without a result and is not
 * as lent, or a work buffer that was not left as the header says, is told in place of the answer. `deep` prints at the end how many bytes of stack the deepest of the
 * calls took. `edges` calls it with three responses of 0.5 on a job that can be fitted, with one thing amiss each, and prints for each a line: what was amiss, what
 * was returned, and whether all else was left as lent. */
#include <math.h>

#include "lent.h"

enum { MANY = GLMM_MOST_MANY + 1, MOST_N = 512 };
static const uint64_t mark = 0x5a5a5a5a5a5a5a5aU;
static uint8_t input[3 + sizeof job + 8 * MANY * MOST_N + 8];
static double responses[MANY * MOST_N + 1], rows[GLMM_MOST_ROWS + GUARD], matrices[GLMM_MOST_MATRICES + GUARD], terms[GLMM_TERMS + GUARD],
    results[GLMM_MOST_MANY * GLMM_MOST_RESULTS + GUARD];
static uint64_t counts[GLMM_MOST_MANY * GLMM_COUNTS + GUARD];

/* What is lent: the lengths of everything, and how many responses there are said to be. */
static struct lent { size_t job, responses, count, rows, matrices, terms, results, counts; } lent;
static struct { size_t n, p, q, block; } sizes;

static void read_sizes(size_t length)
{
    unsigned i, blocks = bits(length, 34, 4), first = bits(length, 0, 4) == 2 ? 56 : 48;
    sizes.n = bits(length, 16, 13), sizes.p = bits(length, 29, 5), sizes.q = 0;
    for (i = 0; i < blocks; i++)
        sizes.q += (size_t)bits(length, first + 16 * i, 7) * bits(length, first + 7 + 16 * i, 4);
    if (glmm_results_length(sizes.n, sizes.p, sizes.q) == 0)
        sizes.n = sizes.p = sizes.q = 1;
    sizes.block = glmm_results_length(sizes.n, sizes.p, sizes.q);
}

/* Lengths that are right for so many responses; for none, or too many, what one, or 64, would take. */
static void lend(size_t count)
{
    size_t room = count < 1 ? 1 : count > GLMM_MOST_MANY ? GLMM_MOST_MANY : count;
    lent.count = count, lent.responses = count * sizes.n;
    lent.rows = glmm_rows_length(sizes.n), lent.matrices = glmm_matrices_length(sizes.p, sizes.q), lent.terms = glmm_terms_length();
    lent.results = room * sizes.block, lent.counts = room * GLMM_COUNTS;
}

/* The call, over patterns. */
static uint64_t call(void)
{
    uint64_t refused;
    size_t i;
    fill(rows, lent.rows + GUARD), fill(matrices, lent.matrices + GUARD), fill(terms, lent.terms + GUARD), fill(results, lent.results + GUARD);
    for (i = 0; i < lent.counts + GUARD; i++)
        counts[i] = mark;
    MEASURED(refused = glmm_fit_many(job, lent.job, responses, lent.responses, lent.count, rows, lent.rows, matrices, lent.matrices, terms, lent.terms, results,
                                     lent.results, counts, lent.counts));
    return refused;
}

/* How many counts from a place on are as lent. */
static int unmarked(size_t from, size_t to)
{
    while (from < to && counts[from] == mark)
        from++;
    return from == to;
}

/* Whether everything that a call may not touch is as lent, and the work buffers as the header says. */
static int whole_after(uint64_t refused)
{
    int whole = kept("rows", rows, lent.rows, refused == 0) & kept("matrices", matrices, lent.matrices, refused == 0) & kept("terms", terms, lent.terms, refused == 0);
    size_t i, written = lent.counts < GLMM_COUNTS ? 0 : refused != 0 ? GLMM_COUNTS : lent.count * GLMM_COUNTS;
    if (refused != 0)
        whole &= kept("results", results, lent.results, 0);
    else if (alike(results + lent.results, GUARD, pattern) != GUARD)
        whole = 0, puts("results: the pattern behind them has changed");
    for (i = 0; refused == 0 && i < lent.count; i++)
        if (counts[i * GLMM_COUNTS] != 0 && alike(results + i * sizes.block, sizes.block, pattern) != sizes.block)
            whole = 0, printf("results: the block of response %u, which was not fitted, is not as lent\n", (unsigned)i);
    if (!unmarked(written, lent.counts + GUARD))
        whole = 0, puts("counts: what is behind those that are told has changed");
    if (refused != 0 && written != 0 && counts[GLMM_NUMBER] != refused)
        whole = 0, puts("counts: not the number that was returned");
    return whole;
}

static void block(const double *next)
{
    size_t n = sizes.n, p = sizes.p, q = sizes.q;
    values("deviance", next, 1), next += 1;
    values("phi", next, 1), next += 1;
    values("beta", next, p), next += p;
    values("se", next, p), next += p;
    values("z", next, p), next += p;
    values("u", next, q), next += q;
    values("b", next, q), next += q;
    values("mu", next, n), next += n;
    values("eta", next, n), next += n;
    values("residual", next, n), next += n;
    values("v", next, p * p);
}

static void answer(uint64_t refused)
{
    size_t i;
    if (refused != 0)
        printf("refused %u at %u\n", (unsigned)refused, (unsigned)counts[GLMM_BYTE]);
    for (i = 0; refused == 0 && i < lent.count; i++) {
        printf("response %u\n", (unsigned)i);
        first_line(counts + i * GLMM_COUNTS);
        if (counts[i * GLMM_COUNTS + GLMM_NUMBER] == 0)
            block(results + i * sizes.block);
    }
}

/* Numbers from bytes, the high byte first. */
static void doubles(const uint8_t *from, size_t count, double *to)
{
    uint64_t number;
    size_t i, j;
    for (i = 0; i < count; i++) {
        for (number = 0, j = 0; j < 8; j++)
            number = number << 8 | from[8 * i + j];
        memcpy(to + i, &number, 8);
    }
}

/* One input: the job, its whole responses (65 stand for all that are more), and one number more where bytes are left over. */
static void run(const char *name)
{
    size_t length = read_file(name, input, 1, sizeof input), front = length < 3 ? 0 : (size_t)input[0] << 16 | (size_t)input[1] << 8 | input[2];
    size_t behind = length < 3 ? 0 : length - 3, count;
    uint64_t refused;
    lent.job = front < behind ? front : behind, behind -= lent.job;
    lent.job = lent.job < sizeof job ? lent.job : sizeof job;
    memcpy(job, input + 3, lent.job);
    read_sizes(lent.job);
    count = behind / (8 * sizes.n), count = count < MANY ? count : MANY;
    doubles(input + (length - behind), count * sizes.n, responses);
    lend(count);
    lent.responses += behind % (8 * sizes.n) != 0;
    refused = call();
    if (whole_after(refused))
        answer(refused);
}

/* ---- one thing amiss */

#define LENGTH(field) offsetof(struct lent, field)
enum { NOWHERE, FIRST, LAST };

/* What is amiss: a length, by so much, or a number of the responses; a first row that is short beside it shows what is tested before that. */
static const struct { const char *name; size_t length; long by; int place; double number; size_t rows_short; } amiss[] = {
    {"rows", LENGTH(rows), -1, NOWHERE, 0, 0}, {"matrices", LENGTH(matrices), -1, NOWHERE, 0, 0}, {"terms", LENGTH(terms), -1, NOWHERE, 0, 0},
    {"results", LENGTH(results), -1, NOWHERE, 0, 1}, {"counts of the last", LENGTH(counts), -1, NOWHERE, 0, 1},
    {"counts", LENGTH(counts), -2 * GLMM_COUNTS - 1, NOWHERE, 0, 1}, {"responses", LENGTH(responses), -1, NOWHERE, 0, 1},
    {"responses and one more", LENGTH(responses), 1, NOWHERE, 0, 1}, {"no response", LENGTH(count), -3, NOWHERE, 0, 1},
    {"65 responses", LENGTH(count), 62, NOWHERE, 0, 1}, {"countless responses", LENGTH(count), -4, NOWHERE, 0, 1}, {"job", LENGTH(job), -1, NOWHERE, 0, 1},
    {"rows, NaN", LENGTH(rows), -1, LAST, NAN, 0}, {"NaN in the last", LENGTH(rows), 0, LAST, NAN, 0}, {"infinity in the first", LENGTH(rows), 0, FIRST, INFINITY, 0},
    {"a last one above 1", LENGTH(rows), 0, LAST, 1.5, 0}, {"a first one below 0", LENGTH(rows), 0, FIRST, -5e-324, 0}};

/* One call of three responses with a thing amiss. */
static void edge(size_t length, size_t which)
{
    size_t i;
    uint64_t refused;
    for (i = 0; i < 3 * sizes.n; i++)
        responses[i] = 0.5;
    if (amiss[which].place != NOWHERE)
        responses[amiss[which].place == FIRST ? 0 : 3 * sizes.n - 1] = amiss[which].number;
    lend(3);
    lent.job = length, lent.rows -= amiss[which].rows_short;
    *(size_t *)((char *)&lent + amiss[which].length) += (size_t)amiss[which].by;
    refused = call();
    printf("%s %u %s\n", amiss[which].name, (unsigned)refused, whole_after(refused) ? "as lent" : "NOT as lent");
}

int main(int count, char **words)
{
    int i;
    size_t length, which;
    measuring = count > 2 && strcmp(words[1], "deep") == 0;
    if (count == 3 && strcmp(words[1], "edges") == 0) {
        length = read_file(words[2], job, 1, sizeof job);
        read_sizes(length);
        for (which = 0; which < sizeof amiss / sizeof *amiss; which++)
            edge(length, which);
        return 0;
    }
    if (count < 3 || (!measuring && strcmp(words[1], "responses") != 0)) {
        fputs("usage: many_c responses FILE.., many_c deep FILE.., or many_c edges JOB\n", stderr);
        return 2;
    }
    for (i = 2; i < count; i++) {
        printf("job %s\n", words[i]);
        run(words[i]);
    }
    if (measuring)
        printf("deepest %u\n", (unsigned)deepest);
    return 0;
}
