/* usage: wafers JOB [THETA ..]
 * Fits the job as it is, and reads the results only where it was fitted; then looks for the theta with the lowest Laplace deviance by a golden-section
 * search: the job is packed once, theta goes beside it. The job has one theta (examples/wafers.job). With thetas given it prints each with its
 * deviance instead. No heap: all buffers are static. */
#include <stdio.h>
#include <stdlib.h>

#include "glmm.h"

static uint8_t job[65537];
static double rows[GLMM_MOST_ROWS], matrices[GLMM_MOST_MATRICES], terms[GLMM_TERMS], results[GLMM_MOST_RESULTS];
static uint64_t counts[GLMM_COUNTS];

/* The deviance at theta; a fit that failed counts as worse than any. */
static double deviance(size_t length, double theta)
{
    uint64_t returned = glmm_fit_job_theta(job, length, &theta, 1, rows, GLMM_MOST_ROWS, matrices, GLMM_MOST_MATRICES, terms, GLMM_TERMS, results,
                                           GLMM_MOST_RESULTS, counts, GLMM_COUNTS);
    return GLMM_FITTED(returned, counts) ? results[0] : 1e300;
}

/* The lowest deviance between low and high, to 1e-6 of theta. */
static double search(size_t length, double low, double high)
{
    const double part = 0.6180339887498949;
    double left = high - part * (high - low), right = low + part * (high - low);
    double at_left = deviance(length, left), at_right = deviance(length, right);
    while (high - low > 1e-6) {
        if (at_left < at_right) {
            high = right, right = left, at_right = at_left;
            left = high - part * (high - low), at_left = deviance(length, left);
        } else {
            low = left, left = right, at_left = at_right;
            right = low + part * (high - low), at_right = deviance(length, right);
        }
    }
    return (low + high) / 2;
}

int main(int count, char **words)
{
    FILE *file = count >= 2 ? fopen(words[1], "rb") : NULL;
    size_t length;
    uint64_t returned;
    double theta;
    int i;
    if (file == NULL) {
        fputs("usage: wafers JOB [THETA ..]\n", stderr);
        return 2;
    }
    length = fread(job, 1, sizeof job, file);
    fclose(file);
    if (count > 2) {
        for (i = 2; i < count; i++)
            printf("%s %.17g\n", words[i], deviance(length, strtod(words[i], NULL)));
        return 0;
    }
    returned = glmm_fit_job(job, length, rows, GLMM_MOST_ROWS, matrices, GLMM_MOST_MATRICES, terms, GLMM_TERMS, results, GLMM_MOST_RESULTS, counts,
                            GLMM_COUNTS);
    if (!GLMM_FITTED(returned, counts)) {
        printf("not fitted: number %u, at byte %u\n", (unsigned)counts[GLMM_NUMBER], (unsigned)counts[GLMM_BYTE]);
        return 1;
    }
    printf("as packed: end %u, deviance %.6f, iterations %u, solves %u, tries %u\n", (unsigned)counts[GLMM_NUMBER], results[0],
           (unsigned)counts[GLMM_ITERATIONS], (unsigned)counts[GLMM_SOLVES], (unsigned)counts[GLMM_TRIES]);
    theta = search(length, 0.0, 4.0);
    printf("lowest deviance %.6f at theta %.4f\n", deviance(length, theta), theta);
    return 0;
}
