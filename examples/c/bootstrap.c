/* usage: bootstrap JOB [ROUNDS]
 * How sure is the spread between wafers? A parametric bootstrap by glmm_fit_many. The job (examples/wafers.job) is binomial with the logit link and numbers of
 * trials as weights, one block with one effect, so one theta: the wafers' spread. It is fitted over a grid of thetas, and the theta with the lowest deviance is the
 * estimate. From the fit there, 64 lots are simulated: each wafer gets a new effect of that spread, each ring its weak cells. Each lot is fitted over the same grid
 * again, all 64 by one call at each theta, and has its own estimate. ROUNDS times 64 lots are made (4). Printed are the estimate, those of the lots, and between
 * which two of them 95 % lie. No heap: all buffers are static. */
#include <stdio.h>
#include <stdlib.h>
#include <string.h>

#include "glmm.h"

enum { LOTS = GLMM_MOST_MANY, MOST_N = 512, MOST_P = 16, MOST_Q = 32, STEPS = 61, MOST_ROUNDS = 100 };
static const double STEP = 0.025; /* of the grid: thetas 0 to 1.5 */

static uint8_t job[65537];
static size_t length, bits;
static size_t n, p, q, theta_at;
static double cells[MOST_N], x[MOST_N * MOST_P], eta[MOST_N], estimates[MOST_ROUNDS * LOTS];
static size_t entries[MOST_Q], observation[MOST_Q * MOST_N];
static double rows[GLMM_MOST_ROWS], matrices[GLMM_MOST_MATRICES], terms[GLMM_TERMS];
static double results[LOTS * GLMM_MOST_RESULTS], responses[LOTS * MOST_N], deviances[LOTS][STEPS];
static uint64_t counts[LOTS * GLMM_COUNTS];

/* ---- the job: what the simulation needs of it */

static uint64_t take(unsigned width)
{
    uint64_t number = 0;
    for (; width > 0 && bits < 8 * length; width--, bits++)
        number = 2 * number + (job[bits / 8] >> (7 - bits % 8) & 1);
    return number;
}

static double take_double(void)
{
    uint64_t pattern = take(64);
    double number;
    memcpy(&number, &pattern, 8);
    return number;
}

/* Whether it is a job of the kind that is simulated here. */
static int taken(void)
{
    unsigned version = (unsigned)take(4), family = (unsigned)take(2), link = (unsigned)take(3), weighted = (unsigned)take(1), shifted = (unsigned)take(1);
    size_t blocks, k, i, r;
    take(5), n = take(13), p = take(5), blocks = take(4), take(version == 2 ? 18 : 10);
    q = take(7), k = take(4), take(5);
    if (family != GLMM_BINOMIAL || link != GLMM_LOGIT || !weighted || shifted || blocks != 1 || k != 1 || n > MOST_N || p > MOST_P || q > MOST_Q)
        return 0;
    theta_at = bits / 8, take_double();
    for (i = 0; i < n; i++)
        take_double();
    for (i = 0; i < n; i++)
        cells[i] = take_double();
    for (i = 0; i < n * p; i++)
        x[i] = take_double();
    for (r = 0; r < q; r++) {
        entries[r] = take(13), take(3);
        for (i = 0; i < entries[r] && i < n; i++)
            observation[r * n + i] = take(13) % n, take(3), take_double(); /* an entry of an intercept is 1 */
    }
    return 1;
}

static void set_theta(double theta)
{
    uint64_t pattern;
    int i;
    memcpy(&pattern, &theta, 8);
    for (i = 0; i < 8; i++)
        job[theta_at + i] = (uint8_t)(pattern >> (56 - 8 * i));
}

/* ---- chance, the same on every machine */

static uint64_t state = 20;

static double uniform(void)
{
    state ^= state << 13, state ^= state >> 7, state ^= state << 17;
    return (double)(state >> 11) / 9007199254740992.0;
}

/* About normal, by twelve uniform numbers. */
static double bell(void)
{
    double sum = -6;
    int i;
    for (i = 0; i < 12; i++)
        sum += uniform();
    return sum;
}

/* A lot: new effects of this spread on the fixed part of the predictor, and the share of weak cells of each ring. */
static void simulate(double theta, const double *beta, double *y)
{
    size_t i, j, r, c;
    for (i = 0; i < n; i++)
        for (eta[i] = 0, j = 0; j < p; j++)
            eta[i] += x[i * p + j] * beta[j];
    for (r = 0; r < q; r++) {
        double own = theta * bell();
        for (i = 0; i < entries[r]; i++)
            eta[observation[r * n + i]] += own;
    }
    for (i = 0; i < n; i++) {
        double chance = 1 / (1 + glmm_exp(-eta[i])), weak = 0;
        for (c = 0; c < (size_t)cells[i]; c++)
            weak += uniform() < chance;
        y[i] = weak / cells[i];
    }
}

/* ---- the fits */

/* The deviance of each of `count` lots at each theta of the grid; one that was not fitted counts as worse than any. */
static int fit_grid(size_t count)
{
    size_t step, lot, block = glmm_results_length(n, p, q);
    for (step = 0; step < STEPS; step++) {
        uint64_t returned;
        set_theta(STEP * (double)step);
        returned = glmm_fit_many(job, length, responses, count * n, count, rows, GLMM_MOST_ROWS, matrices, GLMM_MOST_MATRICES, terms, GLMM_TERMS,
                                 results, LOTS * GLMM_MOST_RESULTS, counts, LOTS * GLMM_COUNTS);
        if (returned != 0) {
            printf("refused with %u\n", (unsigned)returned);
            return 0;
        }
        for (lot = 0; lot < count; lot++)
            deviances[lot][step] = GLMM_FITTED(returned, counts + lot * GLMM_COUNTS) ? results[lot * block] : 1e300;
    }
    return 1;
}

/* The lowest point of the parabola through the lowest deviance of a lot and its neighbours. */
static double lowest(const double *deviance)
{
    size_t best = 0, step;
    double left, right;
    for (step = 1; step < STEPS; step++)
        best = deviance[step] < deviance[best] ? step : best;
    if (best == 0 || best == STEPS - 1)
        return STEP * (double)best;
    left = deviance[best - 1] - deviance[best], right = deviance[best + 1] - deviance[best];
    return STEP * ((double)best + (left + right > 0 ? 0.5 * (left - right) / (left + right) : 0));
}

static int by_size(const void *a, const void *b)
{
    double one = *(const double *)a, two = *(const double *)b;
    return (one > two) - (one < two);
}

/* The estimate of the job itself, by a grid of its own responses; its beta is left in `beta`. */
static double fitted(double *beta)
{
    double theta;
    size_t i;
    for (bits = 8 * (theta_at + 8), i = 0; i < n; i++)
        responses[i] = take_double();
    if (!fit_grid(1))
        return -1;
    theta = lowest(deviances[0]);
    set_theta(theta);
    if (!GLMM_FITTED(glmm_fit_job(job, length, rows, GLMM_MOST_ROWS, matrices, GLMM_MOST_MATRICES, terms, GLMM_TERMS, results, GLMM_MOST_RESULTS, counts,
                                  GLMM_COUNTS), counts))
        return -1;
    memcpy(beta, results + 2, p * sizeof *beta);
    return theta;
}

static void report(double theta, size_t lots)
{
    size_t i, at_zero = 0;
    double mean = 0;
    for (i = 0; i < lots; i++)
        mean += estimates[i] / (double)lots, at_zero += estimates[i] == 0;
    for (i = 0; i < lots; i++)
        printf("lot %u %.6f\n", (unsigned)i, estimates[i]);
    qsort(estimates, lots, sizeof *estimates, by_size);
    printf("spread between wafers %.4f; of %u simulated lots: mean %.4f, 95 %% between %.4f and %.4f, %u at 0\n", theta, (unsigned)lots, mean,
           estimates[lots / 40], estimates[lots - 1 - lots / 40], (unsigned)at_zero);
}

int main(int count, char **words)
{
    FILE *file = count >= 2 ? fopen(words[1], "rb") : NULL;
    size_t rounds = count >= 3 ? strtoul(words[2], NULL, 10) : 4, round, lot;
    double beta[MOST_P], theta;
    if (file == NULL || rounds < 1 || rounds > MOST_ROUNDS) {
        fputs("usage: bootstrap JOB [ROUNDS]\n", stderr);
        return 2;
    }
    length = fread(job, 1, sizeof job, file);
    fclose(file);
    theta = taken() ? fitted(beta) : -1;
    if (theta < 0) {
        puts("not fitted, or not the kind of job that is simulated here");
        return 1;
    }
    for (round = 0; round < rounds; round++) {
        for (lot = 0; lot < LOTS; lot++)
            simulate(theta, beta, responses + lot * n);
        if (!fit_grid(LOTS))
            return 1;
        for (lot = 0; lot < LOTS; lot++)
            estimates[round * LOTS + lot] = lowest(deviances[lot]);
    }
    report(theta, rounds * LOTS);
    return 0;
}
