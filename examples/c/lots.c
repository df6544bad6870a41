/* usage: lots
 * Solder defects on nine boards of three lots, fitted twice: from arrays by glmm_fit_blocks, and by glmm_fit_job from a job that is packed here. Prints
 * the estimates, and whether both answers have the same bits. No heap; the lengths of the work buffers are those that the library asks for. */
#include <stdio.h>
#include <string.h>

#include "glmm.h"

enum { N = 9, P = 2, Q = 3 };
static const struct glmm_settings settings = {
    .family = GLMM_POISSON, .link = GLMM_LOG, .n_agq = 1, .limit = GLMM_NO_LIMIT, .n = N, .p = P, .q = Q, .entries = N};
static const struct glmm_block lots = {.m = Q, .k = 1};
static const double theta[1] = {0.4};
static const double defects[N] = {3, 5, 4, 9, 6, 11, 2, 1, 4};
static const double log_area[N] = {0.0, 0.5, 0.25, 0.0, -0.25, 0.5, 0.0, 0.25, 0.5}; /* the offset */
static const double x[N * P] = {1, -1, 1, 0, 1, 1, 1, -1, 1, 0, 1, 1, 1, -1, 1, 0, 1, 1}; /* 1 and the board's place in the oven, row by row */
/* Z': a row for each lot, with a 1 for each of its boards */
static const size_t starts[Q + 1] = {0, 3, 6, 9}, columns[N] = {0, 1, 2, 3, 4, 5, 6, 7, 8};
static const double values[N] = {1, 1, 1, 1, 1, 1, 1, 1, 1};

static double rows[GLMM_MOST_ROWS], matrices[GLMM_MOST_MATRICES], terms[GLMM_TERMS];

/* ---- the job: fields of bits, the highest bit first */

static uint8_t job[1024];
static size_t bits;

static void put(unsigned width, uint64_t number)
{
    for (; width > 0; width--, bits++)
        if (number >> (width - 1) & 1)
            job[bits / 8] |= (uint8_t)(0x80 >> bits % 8);
}

static void put_doubles(const double *first, size_t count)
{
    uint64_t pattern;
    for (; count > 0; count--, first++)
        memcpy(&pattern, first, 8), put(64, pattern);
}

/* The length in bytes. */
static size_t packed(void)
{
    size_t row, e;
    put(4, 1), put(2, settings.family), put(3, settings.link); /* version, family, link */
    put(1, 0), put(1, 1), put(5, settings.n_agq);              /* no weights, an offset */
    put(13, N), put(5, P), put(4, 1), put(10, settings.limit); /* sizes, one block */
    put(7, lots.m), put(4, lots.k), put(5, 0);
    put_doubles(theta, 1), put_doubles(defects, N), put_doubles(log_area, N), put_doubles(x, N * P);
    for (row = 0; row < Q; row++) {
        put(13, starts[row + 1] - starts[row]), put(3, 0);
        for (e = starts[row]; e < starts[row + 1]; e++)
            put(13, columns[e]), put(3, 0), put_doubles(values + e, 1);
    }
    return bits / 8;
}

static double beta[P], se[P], z[P], u[Q], b[Q], mu[N], eta[N], residual[N], v[P * P], results[GLMM_MOST_RESULTS];
static uint64_t counts[GLMM_COUNTS];

static struct glmm_answer from_arrays(void)
{
    static const double none[1] = {0};
    return glmm_fit_blocks(settings, &lots, 1, theta, 1, defects, N, none, 0, log_area, N, x, N * P, starts, Q + 1, columns, N, values, N,
                           beta, P, se, P, z, P, u, Q, b, Q, mu, N, eta, N, residual, N, v, P * P,
                           rows, glmm_rows_length(N), matrices, glmm_matrices_length(P, Q), terms, glmm_terms_length());
}

static uint64_t from_job(void)
{
    return glmm_fit_job(job, packed(), rows, glmm_rows_length(N), matrices, glmm_matrices_length(P, Q), terms, glmm_terms_length(),
                        results, glmm_results_length(N, P, Q), counts, GLMM_COUNTS);
}

/* Whether the job's results are those in the arrays: deviance, phi, beta, se, z, u and b stand first. */
static int same(const struct glmm_answer *answer)
{
    return memcmp(results, &answer->deviance, 8) == 0 && memcmp(results + 1, &answer->phi, 8) == 0 && memcmp(results + 2, beta, sizeof beta) == 0
           && memcmp(results + 2 + P, se, sizeof se) == 0 && memcmp(results + 2 + 3 * P + Q, b, sizeof b) == 0;
}

int main(void)
{
    struct glmm_answer answer = from_arrays();
    if (!GLMM_ANSWER_FITTED(answer)) {
        printf("not fitted: number %u\n", (unsigned)answer.number);
        return 1;
    }
    printf("from arrays: deviance %.6f, beta %.4f %.4f, b %.4f %.4f %.4f\n", answer.deviance, beta[0], beta[1], b[0], b[1], b[2]);
    if (!GLMM_FITTED(from_job(), counts)) {
        printf("not fitted: number %u, at byte %u\n", (unsigned)counts[GLMM_NUMBER], (unsigned)counts[GLMM_BYTE]);
        return 1;
    }
    printf("as a job: %s\n", same(&answer) ? "the same bits" : "OTHER BITS");
    return !same(&answer);
}
