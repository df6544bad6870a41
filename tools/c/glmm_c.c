/* usage: glmm_c [theta] many FILE..
 *        glmm_c deep FILE..
 *        glmm_c edges FILE
 * The C library on many jobs, printing for each what fitjob prints, after a line `job FILE`. With `theta` the numbers of FILE.theta (doubles as this
 * machine has them) go beside the job in place of its own. Every buffer is lent exactly as long as it must be, with a pattern behind it; a pattern
 * that changed, or a work buffer that was not left as the header says, is told in place of the answer. `deep` prints at the end how many bytes of
 * stack the deepest of the calls took. `edges` calls it with a job that can be fitted
 * and buffers one short each, and prints for each a line: what was short, what was returned, and whether all else was left as lent. */
#include "lent.h"

#define MOST_THETA 528
static const uint64_t mark = 0x5a5a5a5a5a5a5a5aU;
static double theta[MOST_THETA], rows[GLMM_MOST_ROWS + GUARD], matrices[GLMM_MOST_MATRICES + GUARD], terms[GLMM_TERMS + GUARD],
    results[GLMM_MOST_RESULTS + GUARD];
static uint64_t counts[GLMM_COUNTS + GUARD];

/* n observations, p columns and q effects of a job, as far as its header and blocks can be read; else 1 of each. */
static struct { size_t n, p, q; } sizes;

/* What the job says of its sizes; sizes that are not carried are told as 1, since such a job is refused whatever is lent. */
static void read_sizes(size_t length)
{
    unsigned i, blocks = bits(length, 34, 4), first = bits(length, 0, 4) == 2 ? 56 : 48;
    sizes.n = bits(length, 16, 13), sizes.p = bits(length, 29, 5), sizes.q = 0;
    for (i = 0; i < blocks; i++)
        sizes.q += (size_t)bits(length, first + 16 * i, 7) * bits(length, first + 7 + 16 * i, 4);
    if (glmm_results_length(sizes.n, sizes.p, sizes.q) == 0)
        sizes.n = sizes.p = sizes.q = 1;
}

static void answer(uint64_t refused)
{
    const double *next = results;
    size_t n = sizes.n, p = sizes.p, q = sizes.q;
    if (refused != 0) {
        printf("refused %u at %u\n", (unsigned)refused, (unsigned)counts[GLMM_BYTE]);
        return;
    }
    first_line(counts);
    if (counts[GLMM_NUMBER] != 0)
        return;
    values("deviance", next, 1), next += 1;
    values("phi", next, 1), next += 1;
    values("beta", next, p), next += p;
    values("se", next, p), next += p;
    values("z", next, p), next += p;
    values("u", next, q), next += q;
    values("b", next, q), next += q;
    values("mu", next, n), next += n;
    values("eta", next, n), next += n;
    values("residual", next, n), next += n;
    values("v", next, p * p);
}

/* One job with buffers of exactly the lengths that the header names. */
static void run(size_t length, size_t thetas, int beside)
{
    size_t of_rows, of_matrices, of_results, i;
    uint64_t refused;
    int whole;
    read_sizes(length);
    of_rows = glmm_rows_length(sizes.n), of_matrices = glmm_matrices_length(sizes.p, sizes.q);
    of_results = glmm_results_length(sizes.n, sizes.p, sizes.q);
    fill(rows, of_rows + GUARD), fill(matrices, of_matrices + GUARD), fill(terms, GLMM_TERMS + GUARD), fill(results, of_results + GUARD);
    for (i = 0; i < GLMM_COUNTS + GUARD; i++)
        counts[i] = mark;
    if (beside)
        MEASURED(refused = glmm_fit_job_theta(job, length, theta, thetas, rows, of_rows, matrices, of_matrices, terms, glmm_terms_length(), results,
                                              of_results, counts, GLMM_COUNTS));
    else
        MEASURED(refused = glmm_fit_job(job, length, rows, of_rows, matrices, of_matrices, terms, glmm_terms_length(), results, of_results, counts,
                                        GLMM_COUNTS));
    whole = kept("rows", rows, of_rows, refused == 0) & kept("matrices", matrices, of_matrices, refused == 0)
            & kept("terms", terms, GLMM_TERMS, refused == 0);
    if (refused != 0 || counts[GLMM_NUMBER] != 0)
        whole &= kept("results", results, of_results, 0);
    else if (alike(results + of_results, GUARD, pattern) != GUARD)
        whole = 0, puts("results: the pattern behind them has changed");
    for (i = GLMM_COUNTS; i < GLMM_COUNTS + GUARD; i++)
        if (counts[i] != mark)
            whole = 0, puts("counts: the pattern behind them has changed");
    if (refused != 0 && counts[GLMM_NUMBER] != refused)
        whole = 0, puts("counts: not the number that was returned");
    if (whole)
        answer(refused);
}

/* One call with what is told shorter than it must be, and whether nothing but the counts was written. */
static void edge(const char *name, size_t job_length, size_t thetas, int beside, const size_t *shorter)
{
    size_t of_rows = glmm_rows_length(sizes.n) - shorter[0], of_matrices = glmm_matrices_length(sizes.p, sizes.q) - shorter[1];
    size_t of_terms = glmm_terms_length() - shorter[2], of_results = glmm_results_length(sizes.n, sizes.p, sizes.q) - shorter[3];
    size_t of_counts = GLMM_COUNTS - shorter[4], i;
    uint64_t refused;
    int whole;
    fill(rows, of_rows + GUARD), fill(matrices, of_matrices + GUARD), fill(terms, of_terms + GUARD), fill(results, of_results + GUARD);
    for (i = 0; i < GLMM_COUNTS + GUARD; i++)
        counts[i] = mark;
    refused = beside ? glmm_fit_job_theta(job, job_length, theta, thetas, rows, of_rows, matrices, of_matrices, terms, of_terms, results, of_results,
                                          counts, of_counts)
                     : glmm_fit_job(job, job_length, rows, of_rows, matrices, of_matrices, terms, of_terms, results, of_results, counts, of_counts);
    whole = kept("rows", rows, of_rows, 0) & kept("matrices", matrices, of_matrices, 0) & kept("terms", terms, of_terms, 0)
            & kept("results", results, of_results, 0) & (of_counts < GLMM_COUNTS ? counts[0] == mark : counts[GLMM_NUMBER] == refused);
    printf("%s %u %s\n", name, (unsigned)refused, whole ? "as lent" : "NOT as lent");
}

static void edges(size_t length)
{
    static const size_t none[5] = {0, 0, 0, 0, 0};
    static const char *const names[] = {"rows", "matrices", "terms", "results", "counts"};
    int i;
    read_sizes(length);
    for (i = 0; i < 5; i++) {
        size_t shorter[5] = {0, 0, 0, 0, 0};
        shorter[i] = 1;
        edge(names[i], length, 0, 0, shorter);
    }
    edge("job", 0, 0, 0, none);
    edge("theta", length, 0, 1, none);
}

int main(int count, char **words)
{
    int beside = count > 1 && strcmp(words[1], "theta") == 0, i;
    measuring = count > 2 && strcmp(words[1], "deep") == 0;
    if (count == 3 && strcmp(words[1], "edges") == 0) {
        edges(read_file(words[2], job, 1, sizeof job));
        return 0;
    }
    if (count < 3 + beside || (!measuring && strcmp(words[1 + beside], "many") != 0)) {
        fputs("usage: glmm_c [theta] many FILE.., glmm_c deep FILE.., or glmm_c edges FILE\n", stderr);
        return 2;
    }
    for (i = 2 + beside; i < count; i++) {
        static char name[4096];
        size_t thetas = 0;
        if (beside) {
            snprintf(name, sizeof name, "%s.theta", words[i]);
            thetas = read_file(name, theta, 8, MOST_THETA);
        }
        printf("job %s\n", words[i]);
        run(read_file(words[i], job, 1, sizeof job), thetas, beside);
    }
    if (measuring)
        printf("deepest %u\n", (unsigned)deepest);
    return 0;
}
