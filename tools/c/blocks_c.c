/* usage: blocks_c many FILE..
 *        blocks_c deep FILE..
 *        blocks_c edges FILE
 * glmm_fit_blocks with the numbers of many jobs that can be read, printing for each what fitjob prints, after a line `job FILE`. Every buffer is lent
 * exactly as long as it must be, with a pattern behind it; a pattern that changed, or a buffer that was not left as the header says, is told in place of
 * the answer. `deep` prints at the end how many bytes of stack the deepest of the calls took. `edges` calls it with a job that can be fitted and one
 * thing amiss each, and prints for each a line: what was amiss, the answer's number,
 * and whether all was left as lent. */
#include "lent.h"
#include "parts.h"

static const char *const names[SLICES] = {"theta", "y", "weights", "offset", "x", "values", "beta", "se", "z",
                                          "u", "b", "mu", "eta", "residual", "v", "rows", "matrices", "terms"};

static struct glmm_answer call(void)
{
    struct glmm_answer found;
    int i;
    for (i = BETA; i < SLICES; i++)
        fill(numbers[i], lengths[i] + GUARD);
    MEASURED(found = glmm_fit_blocks(settings, blocks, blocks_length, LENT(THETA), LENT(Y), LENT(WEIGHTS), LENT(OFFSET), LENT(X), starts, starts_length,
                                     columns, columns_length, LENT(VALUES), LENT(BETA), LENT(SE), LENT(Z), LENT(U), LENT(B), LENT(MU), LENT(ETA),
                                     LENT(RESIDUAL), LENT(V), LENT(ROWS), LENT(MATRICES), LENT(TERMS)));
    return found;
}

/* Whether the call was accepted: it is fitted, or ended without a result. */
static int accepted(uint64_t number)
{
    return number == 0 || (number >= 10 && number <= 13);
}

/* Whether every buffer was left as the header says. */
static int as_told(uint64_t number)
{
    int i, whole = 1;
    for (i = BETA; i < ROWS; i++)
        whole &= number == 0 ? kept(names[i], numbers[i] + lengths[i], 0, 0) : kept(names[i], numbers[i], lengths[i], 0);
    for (; i < SLICES; i++)
        whole &= kept(names[i], numbers[i], lengths[i], accepted(number));
    return whole;
}

static void run(void)
{
    struct glmm_answer found;
    uint64_t counts[GLMM_COUNTS];
    int i;
    read_job();
    found = call();
    if (!as_told(found.number))
        return;
    if (!accepted(found.number)) {
        printf("refused %u at 0\n", (unsigned)found.number);
        return;
    }
    counts[GLMM_NUMBER] = found.number, counts[GLMM_ORDER] = found.order, counts[GLMM_FLAG] = found.flag, counts[GLMM_ITERATIONS] = found.iterations;
    counts[GLMM_FITS] = found.fits, counts[GLMM_SOLVES] = found.solves, counts[GLMM_TRIES] = found.tries, counts[GLMM_POINTS] = found.points;
    counts[GLMM_WHY] = found.why, counts[GLMM_ETA] = found.eta, counts[GLMM_MEAN] = found.mean, counts[GLMM_PWRSS] = found.pwrss;
    counts[GLMM_OK] = found.ok, counts[GLMM_BYTE] = 0;
    first_line(counts);
    if (found.number != 0)
        return;
    values("deviance", &found.deviance, 1), values("phi", &found.phi, 1);
    for (i = BETA; i < ROWS; i++)
        values(names[i], numbers[i], lengths[i]);
}

/* One call with something amiss: a refusal counts nothing, and leaves all as lent. */
static void edge(const char *name)
{
    struct glmm_answer found = call();
    uint64_t counted = found.order | found.flag | found.iterations | found.fits | found.solves | found.tries | found.points | found.why | found.eta
                       | found.mean | found.pwrss | found.ok;
    int blank = counted == 0 && pattern_of(found.deviance) == 0 && pattern_of(found.phi) == 0;
    printf("%s %u %s\n", name, (unsigned)found.number, as_told(found.number) && blank ? "as lent" : "NOT as lent");
}

/* A number is changed for one call. */
static void changed(const char *name, size_t *number, size_t to)
{
    size_t was = *number;
    *number = to, edge(name), *number = was;
}

static void edges(void)
{
    double was;
    size_t link;
    int i;
    read_job();
    for (i = 0; i < SLICES; i++)
        changed(names[i], &lengths[i], lengths[i] == 0 ? 1 : lengths[i] - 1);
    changed("starts", &starts_length, starts_length - 1), changed("columns", &columns_length, columns_length - 1);
    changed("no block", &blocks_length, 0), changed("nine blocks", &blocks_length, 9);
    changed("no group", &blocks[0].m, 0), changed("a group more", &blocks[0].m, blocks[0].m + 1), changed("countless groups", &blocks[0].m, SIZE_MAX);
    changed("no effect", &blocks[0].k, 0), changed("nine effects", &blocks[0].k, 9), changed("countless effects", &blocks[0].k, SIZE_MAX);
    changed("no family", &settings.family, 4), changed("no link", &settings.link, 7), changed("countless links", &settings.link, SIZE_MAX);
    changed("no start", &settings.start, 2), changed("countless starts", &settings.start, SIZE_MAX);
    changed("limit", &settings.limit, 1001), changed("limit of a job", &settings.limit, 1022);
    changed("many observations", &settings.n, 513), changed("many columns", &settings.p, 17), changed("many entries", &settings.entries, 8193);
    changed("a late start", &starts[0], 1), changed("a start past the end", &starts[1], SIZE_MAX), changed("no such observation", &columns[0], settings.n);
    was = numbers[Y][0], numbers[Y][0] = -1.0 / 0.0, edge("an infinite response"), changed("no link, an infinite response", &settings.link, 7);
    numbers[Y][0] = 1.5, edge("a response above 1"), changed("no link, a response above 1", &settings.link, 7);
    numbers[Y][0] = was, link = settings.link, settings.link = 7, changed("no link, no block", &blocks_length, 0), settings.link = link;
    settings.family = GLMM_BINOMIAL, settings.link = GLMM_SQRT, edge("another family's link");
    settings.family = GLMM_POISSON, settings.link = GLMM_PROBIT, edge("probit of another family");
    settings.link = GLMM_LOG, changed("trials of another family", &settings.start, GLMM_TRIALS);
}

int main(int count, char **words)
{
    int i, only = count == 3 && strcmp(words[1], "edges") == 0;
    measuring = count > 2 && strcmp(words[1], "deep") == 0;
    if (!only && !measuring && (count < 3 || strcmp(words[1], "many") != 0)) {
        fputs("usage: blocks_c many FILE.., blocks_c deep FILE.., or blocks_c edges FILE\n", stderr);
        return 2;
    }
    for (i = 2; i < count; i++) {
        length = read_file(words[i], job, 1, sizeof job);
        if (only) {
            edges();
        } else {
            printf("job %s\n", words[i]);
            run();
        }
    }
    if (measuring)
        printf("deepest %u\n", (unsigned)deepest);
    return 0;
}
