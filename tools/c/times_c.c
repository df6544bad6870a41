/* usage: times_c theta|blocks FILE
 *        times_c exp|ln|products
 * Calls that are timed from outside (tools/bench lme4). For each line of standard input, a number, so many calls are made, and a line is printed when they are
 * done. theta and blocks: of glmm_fit_job_theta or glmm_fit_blocks with the numbers of a job; the line has the number, solves, tries, deviance and beta.
 * exp and ln: rounds of ROUND calls each. products: ROUND rounds of WIDE multiplications and additions, of sums that advance side by side. */
#include <stdlib.h>

#include "bytes.h"
#include "parts.h"

enum { ROUND = 512, WIDE = 16 };
static double results[GLMM_MOST_RESULTS], arguments[ROUND], found[ROUND], wide[ROUND * WIDE], sums[WIDE];
static uint64_t counts[GLMM_COUNTS];

static void put(unsigned number, unsigned solves, unsigned tries, double deviance, const double *beta)
{
    size_t i;
    printf("%u %u %u %.17g", number, solves, tries, deviance);
    for (i = 0; i < settings.p; i++)
        printf(" %.17g", beta[i]);
    putchar('\n');
}

static void by_theta(unsigned long calls)
{
    while (calls-- > 0)
        glmm_fit_job_theta(job, length, LENT(THETA), LENT(ROWS), LENT(MATRICES), LENT(TERMS), results, GLMM_MOST_RESULTS, counts, GLMM_COUNTS);
    put((unsigned)counts[GLMM_NUMBER], (unsigned)counts[GLMM_SOLVES], (unsigned)counts[GLMM_TRIES], results[0], results + 2);
}

static void by_blocks(unsigned long calls)
{
    struct glmm_answer answer = {0};
    while (calls-- > 0)
        answer = glmm_fit_blocks(settings, blocks, blocks_length, LENT(THETA), LENT(Y), LENT(WEIGHTS), LENT(OFFSET), LENT(X), starts, starts_length, columns,
                                 columns_length, LENT(VALUES), LENT(BETA), LENT(SE), LENT(Z), LENT(U), LENT(B), LENT(MU), LENT(ETA), LENT(RESIDUAL), LENT(V),
                                 LENT(ROWS), LENT(MATRICES), LENT(TERMS));
    put((unsigned)answer.number, (unsigned)answer.solves, (unsigned)answer.tries, answer.deviance, numbers[BETA]);
}

static void by_function(double (*f)(double), unsigned long calls)
{
    double sum = 0.0;
    int i;
    while (calls-- > 0)
        for (i = 0; i < ROUND; i++)
            found[i] = f(arguments[i]);
    for (i = 0; i < ROUND; i++)
        sum += found[i];
    printf("%.17g\n", sum);
}

static void by_products(unsigned long calls)
{
    double side[WIDE];
    int i, k;
    memset(side, 0, sizeof side);
    while (calls-- > 0)
        for (i = 0; i < ROUND; i++)
            for (k = 0; k < WIDE; k++)
                side[k] += arguments[i] * wide[i * WIDE + k];
    memcpy(sums, side, sizeof side);
    printf("%.17g\n", sums[0]);
}

int main(int count, char **words)
{
    const char *what = count > 1 ? words[1] : "";
    unsigned long calls;
    int i;
    if (count == 3)
        length = read_file(words[2], job, 1, sizeof job), read_job();
    for (i = 0; i < ROUND * WIDE; i++)
        wide[i] = (double)(i % 7 + 1) / 8, arguments[i % ROUND] = (double)(i % ROUND + 1) / 128;
    while (scanf("%lu", &calls) == 1) {
        if (strcmp(what, "theta") == 0)
            by_theta(calls);
        else if (strcmp(what, "blocks") == 0)
            by_blocks(calls);
        else if (strcmp(what, "products") == 0)
            by_products(calls);
        else
            by_function(strcmp(what, "exp") == 0 ? glmm_exp : glmm_ln, calls);
        fflush(stdout);
    }
    return 0;
}
