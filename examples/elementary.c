/* Calls the proved elementary functions from C and prints each answer with its bits. In the repository's root:
 *     make && gcc -Iinclude examples/elementary.c target/package/libglmm.a -o target/elementary && target/elementary
 * libelementary_c.a, which has these functions alone, does as well in the place of libglmm.a. */
#include <inttypes.h>
#include <stdio.h>
#include <string.h>

#include "glmm.h"

static void put(const char *name, double x, double y)
{
    uint64_t bits;
    memcpy(&bits, &y, sizeof bits);
    printf("%-13s %-6g %.17g %016" PRIX64 "\n", name, x, y, bits);
}

int main(void)
{
    put("sqrt", 2.0, glmm_sqrt(2.0));
    put("sqrt", -0.0, glmm_sqrt(-0.0));
    put("exp", 1.0, glmm_exp(1.0));
    put("ln", 10.0, glmm_ln(10.0));
    put("ln_1p", 1e-9, glmm_ln_1p(1e-9));
    put("exp_m1", 1e-9, glmm_exp_m1(1e-9));
    put("ln_gamma", 0.375, glmm_ln_gamma(0.375));
    put("norm_cdf", -2.0, glmm_norm_cdf(-2.0));
    put("norm_pdf", 0.5, glmm_norm_pdf(0.5));
    put("norm_quantile", 0.975, glmm_norm_quantile(0.975));
    return 0;
}
