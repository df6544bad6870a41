/* The fit of a generalised linear mixed model at a given theta, for C99 and C++.
 *
 * For x86-64 alone. Link with libglmm, static or shared, which has every function of this header (`make install`; `pkg-config --cflags --libs glmm`).
 * Or link one of the archives that it is made of: libglmm_c.a has all but glmm_fit_blocks; libblocks_c.a has glmm_fit_blocks and the lengths of its
 * work buffers; libelementary_c.a has the elementary functions alone. A function that two archives have is the same in both, so a program may link
 * them together if it allows the linker to take either (`-Wl,-z,muldefs`).
 *
 * No heap, no files, no state: every function may be called from several threads at once as long as no two calls write to the same buffer. A call
 * is finished by a bounded amount of work, on a bounded stack (docs/EMBEDDED.md).
 *
 * Buffers are lent: nothing is kept after the call, and nothing is written past the lengths given. Every buffer is an array with its length in
 * elements, not bytes, aligned as its type is; an array of length 0 may have any such pointer but NULL. Two buffers of one call must not overlap.
 * Nothing else is asked of any argument: whatever is lent gets an answer. */
#ifndef GLMM_H
#define GLMM_H

#include <stddef.h>
#include <stdint.h>

#ifdef __cplusplus
extern "C" {
#endif

/* ---- what a caller lends, and reads afterwards */

/* FITTED? A RETURN VALUE OF 0 DOES NOT MEAN THAT THERE ARE RESULTS. It means that the call was accepted. Where it then ended without a fit (10 to 13),
 * `results` is as lent, and whoever reads it reads what was there before. So ask before you read:
 *
 *     if (GLMM_FITTED(glmm_fit_job(.., counts, GLMM_COUNTS), counts))
 *         use(results);
 *
 * `returned` is what glmm_fit_job, glmm_fit_job_theta or glmm_fit_many returned, or the call itself; `counts` is what was lent to it. */
#define GLMM_FITTED(returned, counts) ((returned) == 0 && (counts)[GLMM_NUMBER] == 0)

/* The same of an answer of glmm_fit_blocks. */
#define GLMM_ANSWER_FITTED(answer) ((answer).number == 0)

/* How many numbers `counts` must have at least; the indices below say what each is. */
#define GLMM_COUNTS 14
enum {
    GLMM_NUMBER = 0,     /* 0 fitted; 10 A has a bad pivot; 11 the normal matrix has one; 12 no step was accepted; 13 the iterations ran out;
                            else the refusal's number, which is also returned (docs/NUMBERS.md tells what to do about each) */
    GLMM_ORDER = 1,      /* the quadrature's order, 1 for the Laplace deviance, 0 where nothing was fitted */
    GLMM_FLAG = 2,       /* 1 where the dispersion came to rest or is not estimated; 0 where it did not, or nothing was fitted */
    GLMM_ITERATIONS = 3, /* iterations of the last inner fit, 0 where nothing was fitted */
    GLMM_FITS = 4,       /* inner fits begun */
    GLMM_SOLVES = 5,     /* systems solved */
    GLMM_TRIES = 6,      /* candidate steps tried; the last four counts say what became of them, and add up to this one */
    GLMM_POINTS = 7,     /* points of quadratures */
    GLMM_BYTE = 8,       /* the byte of the job at which it was refused, else 0 */
    GLMM_WHY = 9,        /* why the deviance is Laplace's, 1 to 6: 1 the wish is below 2; 2 too many effects; 3 the cap left no order; 4 a bad diagonal;
                            5 a failed inverse or factor; 6 a sum that is not finite (docs/NUMBERS.md); 0 where a quadrature was used, or nothing was
                            fitted */
    GLMM_ETA = 10,       /* tries refused for the predictor: one that is not finite, or with the inverse link not above 2^-52 */
    GLMM_MEAN = 11,      /* tries refused for a mean that is not finite, the predictor being fine */
    GLMM_PWRSS = 12,     /* tries refused for a penalised sum of squares that is not finite, predictor and means being fine */
    GLMM_OK = 13         /* tries accepted: as many as systems solved, or one less where the number is 12 */
};

/* The lengths of the work buffers and of the results for n observations, p columns of X and q effects; 0 where the sizes are not carried
 * (n 1 to 512, p 1 to 16, q 1 to 32). The first three are in libblocks_c.a too. */
size_t glmm_rows_length(size_t n);
size_t glmm_matrices_length(size_t p, size_t q);
size_t glmm_terms_length(void);
size_t glmm_results_length(size_t n, size_t p, size_t q);

/* Static buffers of these lengths do for every job. */
#define GLMM_MOST_ROWS 8192
#define GLMM_MOST_MATRICES 5696
#define GLMM_TERMS 7000
#define GLMM_MOST_RESULTS 1906

/* How many responses glmm_fit_many takes in one call. */
#define GLMM_MOST_MANY 64

/* ---- the fit
 *
 * job        the bytes of a job, at most 65,536, of version 1 or 2 (tools/job makes one of a text); version 2 says how the starting means are made
 * rows, matrices, terms
 *            work buffers of at least the lengths above (else 7); after an accepted call the named lengths are +0.0, and what is behind them is as lent
 * results    at least glmm_results_length(n, p, q) numbers (else 2): deviance, phi, beta (p), se (p), z (p), u (q), b (q), mu (n), eta (n),
 *            residual (n), v (p times p, row by row); these are written where counts[GLMM_NUMBER] is 0, and what is behind them is as lent; else all
 *            is as lent
 * counts     at least GLMM_COUNTS numbers, of which the first GLMM_COUNTS are written by every call; a shorter one is left as lent, and 2 is
 *            returned before the job is looked at
 *
 * Returned: 0 where the call was accepted (counts[GLMM_NUMBER] is then 0, 10, 11, 12 or 13: ask GLMM_FITTED), else the refusal's number: of a job that
 * cannot be read (20 to 25, or 1; counts[GLMM_BYTE] says where), else of the table (1, 2, 7, 6, 3, 4, 9, 27, tested in this order). After a refusal
 * everything but counts is as lent. */
uint64_t glmm_fit_job(const uint8_t *job, size_t job_length,
                      double *rows, size_t rows_length,
                      double *matrices, size_t matrices_length,
                      double *terms, size_t terms_length,
                      double *results, size_t results_length,
                      uint64_t *counts, size_t counts_length);

/* The same with theta in place of the job's own, which is not looked at, so that a search over theta packs its job once. It is as long as the job's
 * (else 2) and finite (else 3). */
uint64_t glmm_fit_job_theta(const uint8_t *job, size_t job_length,
                            const double *theta, size_t theta_length,
                            double *rows, size_t rows_length,
                            double *matrices, size_t matrices_length,
                            double *terms, size_t terms_length,
                            double *results, size_t results_length,
                            uint64_t *counts, size_t counts_length);

/* The same for each of `count` responses in place of the job's own, which is not looked at: one design, theta, weights, offset and settings, read once.
 * What it leaves of each response is what glmm_fit_job leaves for the job with that response, and no response disturbs another.
 *
 * responses  count times n numbers, one response behind another (else 2)
 * count      1 to GLMM_MOST_MANY (else 8)
 * results    at least count times glmm_results_length(n, p, q) numbers (else 2): a block for each response, in the layout of glmm_fit_job's results, and
 *            as lent where its number is not 0
 * counts     at least count times GLMM_COUNTS numbers (else 2, where it has GLMM_COUNTS; a shorter one is left as lent, and 2 is returned before the job is
 *            looked at): GLMM_COUNTS for each response. Response i was fitted where counts[i * GLMM_COUNTS + GLMM_NUMBER] is 0, or
 *            GLMM_FITTED(returned, counts + i * GLMM_COUNTS)
 *
 * Returned: 0 where the call was accepted, whatever each response came to. Else all responses are refused together, and the first GLMM_COUNTS of counts
 * tell it as glmm_fit_job's do: a job that cannot be read, else the table's numbers, with 8 behind 1 and over all responses (1, 8, 2, 7, 6, 3, 4, 9, 27).
 * After a refusal everything else is as lent. */
uint64_t glmm_fit_many(const uint8_t *job, size_t job_length,
                       const double *responses, size_t responses_length,
                       size_t count,
                       double *rows, size_t rows_length,
                       double *matrices, size_t matrices_length,
                       double *terms, size_t terms_length,
                       double *results, size_t results_length,
                       uint64_t *counts, size_t counts_length);

/* ---- the same fit with the numbers of a job in arrays of their own */

/* A block of random effects: m groups with k effects each. */
struct glmm_block {
    size_t m, k;
};

/* Families and links that can be named; a link that does not go with its family is refused with 4, and so is a number that names none. */
enum { GLMM_BINOMIAL = 0, GLMM_POISSON = 1, GLMM_GAUSSIAN = 2, GLMM_GAMMA = 3 };
enum { GLMM_LOGIT = 0, GLMM_PROBIT = 1, GLMM_CLOGLOG = 2, GLMM_LOG = 3, GLMM_IDENTITY = 4, GLMM_INVERSE = 5, GLMM_SQRT = 6 };

/* How the starting means are made. With GLMM_TRIALS a binomial response y with weight w begins at (w y + 0.5) / (w + 1), as in R: the weight is the number
 * of trials, and y the share of successes. It is refused with 27 where the family is another, or a weight is below 0; a number that names no start with 4. */
enum { GLMM_USUAL = 0, GLMM_TRIALS = 1 };

/* In place of a limit: 100 iterations, 1000 for the inverse link. */
#define GLMM_NO_LIMIT 1023

struct glmm_settings {
    size_t family, link; /* as named above; another number is refused with 4, where that stands in the order of the tests */
    size_t n_agq;        /* the quadrature's order that is wished for; 0 or 1 for the Laplace deviance */
    size_t limit;        /* of iterations, 0 to 1000, or GLMM_NO_LIMIT */
    size_t n, p;         /* observations, 1 to 512, and columns of X, 1 to 16 */
    size_t q;            /* random effects, 1 to 32: the sum of m times k over all blocks */
    size_t entries;      /* of Z', at most 8,192 */
    size_t start;        /* GLMM_USUAL or GLMM_TRIALS */
};

/* What is returned. But for number 0 it is all 0, save the work of a call that was accepted (10 to 13). */
struct glmm_answer {
    uint64_t number;      /* 0 fitted; 10, 11, 12, 13 as in counts[GLMM_NUMBER]; else the refusal's number: 1, 2, 7, 6, 3, 4, 9, 27, tested in this order */
    double deviance, phi;
    uint64_t order, flag, iterations, fits, solves, tries, points, why, eta, mean, pwrss, ok; /* as the counts of these names */
};

/* blocks     1 to 8 blocks (else 1), each with 1 to 8 effects and at least one group
 * theta      k(k + 1)/2 numbers for each block: its lower triangle column by column
 * y          n responses
 * weights, offset
 *            n numbers each, or none: a length of 0
 * x          n times p numbers, row by row
 * starts, columns, values
 *            Z' by rows, one for each effect: row r has the entries starts[r] to starts[r + 1] - 1, so starts has q + 1 numbers, the first 0 and the
 *            last `entries`; columns[e] is the observation of entry e, 0 to n - 1, ascending within a row, and values[e] its number (else 6)
 * beta, se, z
 *            results, p numbers each
 * u, b       q numbers each
 * mu, eta, residual
 *            n numbers each
 * v          p times p numbers, row by row
 * rows, matrices, terms
 *            work buffers of at least the lengths above (else 7), left as glmm_fit_job leaves them
 *
 * A length that is not as told here is refused with 2, a number that is not finite with 3, a response outside its family's range (binomial 0 to 1,
 * Poisson from 0 on, Gamma above 0) with 9. The results are written where the answer's number is 0
 * (GLMM_ANSWER_FITTED), and are else as lent; after a refusal everything is. */
struct glmm_answer glmm_fit_blocks(struct glmm_settings settings,
                                   const struct glmm_block *blocks, size_t blocks_length,
                                   const double *theta, size_t theta_length,
                                   const double *y, size_t y_length,
                                   const double *weights, size_t weights_length,
                                   const double *offset, size_t offset_length,
                                   const double *x, size_t x_length,
                                   const size_t *starts, size_t starts_length,
                                   const size_t *columns, size_t columns_length,
                                   const double *values, size_t values_length,
                                   double *beta, size_t beta_length,
                                   double *se, size_t se_length,
                                   double *z, size_t z_length,
                                   double *u, size_t u_length,
                                   double *b, size_t b_length,
                                   double *mu, size_t mu_length,
                                   double *eta, size_t eta_length,
                                   double *residual, size_t residual_length,
                                   double *v, size_t v_length,
                                   double *rows, size_t rows_length,
                                   double *matrices, size_t matrices_length,
                                   double *terms, size_t terms_length);

/* ---- the elementary functions that the fit uses, the same bits on every machine (docs/ELEMENTARY.md); any argument */
double glmm_exp(double x);
double glmm_exp_m1(double x);
double glmm_ln(double x);
double glmm_ln_1p(double x);
double glmm_ln_gamma(double x); /* of the numbers above 0; below 0 it is NaN */
double glmm_norm_cdf(double x); /* the normal distribution function, */
double glmm_norm_pdf(double x); /* its density */
double glmm_norm_quantile(double x); /* and its quantile, of the numbers from 0 to 1; outside it is NaN */
double glmm_sqrt(double x);

#ifdef __cplusplus
}
#endif

#endif
