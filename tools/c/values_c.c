/* usage: values_c < DOUBLES
 * The elementary functions of an archive at each number of standard input, a double as this machine has it: a line as crates/cases_elementary prints it. */
#include <stdio.h>
#include <string.h>

#include "glmm.h"

/* A blank and the sixteen digits of x, those of one NaN for every NaN. */
static void put(double x)
{
    uint64_t pattern;
    memcpy(&pattern, &x, 8);
    if (x != x)
        pattern = 0x7ff8000000000000U;
    printf(" %08X%08X", (unsigned)(pattern >> 32), (unsigned)(pattern & 0xffffffffU));
}

int main(void)
{
    double x;
    while (fread(&x, sizeof x, 1, stdin) == 1) {
        fputs("at", stdout);
        put(x), put(glmm_sqrt(x)), put(glmm_exp(x)), put(glmm_ln(x)), put(glmm_ln_1p(x)), put(glmm_exp_m1(x)), put(glmm_ln_gamma(x));
        put(glmm_norm_cdf(x)), put(glmm_norm_pdf(x)), put(glmm_norm_quantile(x));
        putchar('\n');
    }
    return 0;
}
