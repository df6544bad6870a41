/* The elementary functions of the proved archive, called from C.
   usage: elementary values NAME   reads doubles from standard input and writes the function's values
          elementary times         prints for each function the nanoseconds of a call, ours and the C library's
          elementary names         prints the functions that the archive has */
#include <math.h>
#include <stdio.h>
#include <stdlib.h>
#include <string.h>
#include <time.h>

#define WEAK __attribute__((weak))
double glmm_sqrt(double) WEAK, glmm_exp(double) WEAK, glmm_ln(double) WEAK, glmm_ln_1p(double) WEAK, glmm_exp_m1(double) WEAK,
    glmm_ln_gamma(double) WEAK, glmm_norm_cdf(double) WEAK, glmm_norm_pdf(double) WEAK, glmm_norm_quantile(double) WEAK;

typedef double (*function)(double);

struct entry {
    const char *name;
    function ours, theirs;
    double from, to; /* where the times are taken */
};

/* The normal distribution by what the C library has; of its quantile it has nothing. */
static double their_cdf(double x) { return erfc(-x / sqrt(2.0)) / 2.0; }
static double their_pdf(double x) { return exp(-x * x / 2.0) / sqrt(6.283185307179586); }

static const struct entry table[] = {
    {"sqrt", glmm_sqrt, sqrt, 0.0, 100.0},
    {"exp", glmm_exp, exp, -30.0, 30.0},
    {"ln", glmm_ln, log, 0.0, 100.0},
    {"ln_1p", glmm_ln_1p, log1p, -0.9, 10.0},
    {"exp_m1", glmm_exp_m1, expm1, -30.0, 30.0},
    {"ln_gamma", glmm_ln_gamma, lgamma, 0.0, 100.0},
    {"norm_cdf", glmm_norm_cdf, their_cdf, -8.0, 8.0},
    {"norm_pdf", glmm_norm_pdf, their_pdf, -8.0, 8.0},
    {"norm_quantile", glmm_norm_quantile, NULL, 0.0, 1.0},
};

enum { FUNCTIONS = sizeof table / sizeof table[0], COUNT = 1 << 14, ROUNDS = 15, REPEATS = 8 };

static int values(const char *name) {
    for (int i = 0; i < FUNCTIONS; i++) {
        if (strcmp(table[i].name, name) != 0 || !table[i].ours) continue;
        double x;
        while (fread(&x, sizeof x, 1, stdin) == 1) {
            double y = table[i].ours(x);
            fwrite(&y, sizeof y, 1, stdout);
        }
        return 0;
    }
    return 1;
}

static double now(void) {
    struct timespec t;
    clock_gettime(CLOCK_MONOTONIC, &t);
    return (double)t.tv_sec * 1e9 + (double)t.tv_nsec;
}

static volatile double sink;

/* The mean time of a call over all the arguments. */
static double one_round(function f, const double *x) {
    double start = now(), sum = 0.0;
    for (int r = 0; r < REPEATS; r++)
        for (int i = 0; i < COUNT; i++) sum += f(x[i]);
    sink = sum;
    return (now() - start) / ((double)COUNT * REPEATS);
}

/* Rounds of both take turns, and each keeps its best. */
static void times(const struct entry *e) {
    static double x[COUNT];
    unsigned long long state = 20240601;
    for (int i = 0; i < COUNT; i++) {
        state = state * 6364136223846793005ull + 1442695040888963407ull;
        x[i] = e->from + (e->to - e->from) * ((double)(state >> 11) / 9007199254740992.0);
    }
    double ours = 1e30, theirs = e->theirs ? 1e30 : NAN;
    for (int r = 0; r < ROUNDS; r++) {
        double a = one_round(e->ours, x), b = e->theirs ? one_round(e->theirs, x) : NAN;
        if (a < ours) ours = a;
        if (b < theirs) theirs = b;
    }
    printf("%s %.2f %.2f %.2f\n", e->name, ours, theirs, ours / theirs);
}

int main(int argc, char **argv) {
    if (argc == 3 && strcmp(argv[1], "values") == 0) return values(argv[2]);
    if (argc != 2) return 2;
    for (int i = 0; i < FUNCTIONS; i++) {
        if (!table[i].ours) continue;
        if (strcmp(argv[1], "times") == 0) times(&table[i]);
        if (strcmp(argv[1], "names") == 0) puts(table[i].name);
    }
    return 0;
}
