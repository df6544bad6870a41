"""Links and families of the reference, element by element, with Rust's `max` and `clamp` in document 01's words. exp, ln, ln_1p, exp_m1 and the square
root are those of tools/cases/elementary.py, ln_gamma that of tools/cases/log_gamma.py, the normal distribution's three those of tools/cases/normal.py: the algorithms
of docs/ELEMENTARY.md in Python's own doubles."""
import math, sys
from pathlib import Path

sys.path.append(str(Path(__file__).resolve().parents[1] / "cases"))
from elementary import exp, exp_m1, ln, ln_1p, sqrt
from log_gamma import ln_gamma
from normal import norm_cdf, norm_pdf, norm_quantile

E = 2.0**-52
INF, NAN = math.inf, math.nan
BINOMIAL, POISSON, GAUSSIAN, GAMMA = 0, 1, 2, 3
LOGIT, PROBIT, CLOGLOG, LOG, IDENTITY, INVERSE, SQRT = range(7)


def larger(a, b):
    """a.max(b): of one NaN the other number, of two zeros the second."""
    return a if math.isnan(b) or b < a else b


def inside(p):
    """p.clamp(E, 1 - E): NaN stays."""
    return p if math.isnan(p) else E if p < E else 1.0 - E if p > 1.0 - E else p


def over(a, b):
    """a / b as IEEE 754 has it, also where b is zero."""
    if b != 0.0:
        return a / b
    return NAN if a == 0.0 or math.isnan(a) else math.copysign(INF, a) * math.copysign(1.0, b)


def link_fun(link, m):
    if link == LOGIT:
        m = inside(m)
        return ln(over(m, 1.0 - m))
    if link == PROBIT:
        return norm_quantile(inside(m))
    if link == CLOGLOG:
        return ln(-ln_1p(-inside(m)))
    if link == LOG:
        return ln(m)
    if link == INVERSE:
        return over(1.0, larger(m, E))
    return sqrt(larger(m, 0.0)) if link == SQRT else m


def link_inv(link, e):
    if link == LOGIT:
        return inside(over(1.0, 1.0 + exp(-e)))
    if link == PROBIT:
        return inside(norm_cdf(e))
    if link == CLOGLOG:
        return inside(-exp_m1(-exp(e)))
    if link == LOG:
        return exp(e)
    if link == INVERSE:
        return over(1.0, larger(e, E))
    return larger(e, 0.0) * larger(e, 0.0) if link == SQRT else e


def mu_eta(link, e):
    if link == LOGIT:
        p = over(1.0, 1.0 + exp(-e))
        return larger(p * (1.0 - p), E)
    if link == PROBIT:
        return larger(norm_pdf(e), E)
    if link == CLOGLOG:
        grown = exp(e)
        return larger(0.0 if math.isinf(grown) else grown * exp(-grown), E)
    if link == LOG:
        return exp(e)
    if link == INVERSE:
        e = larger(e, E)
        return -larger(over(1.0, e * e), E)
    return larger(2.0 * larger(e, 0.0), E) if link == SQRT else 1.0


def start_mean(family, y):
    if family == BINOMIAL:
        return (y + 0.5) / 2.0
    if family == GAMMA:
        return larger(y, E)
    return y + 0.1 if family == POISSON else y


def trials_mean(w, y):
    """R's start of a binomial response, the weight being its number of trials (document 02, P10)."""
    return over(w * y + 0.5, w + 1.0)


def variance(family, m):
    if family == BINOMIAL:
        m = inside(m)
        return m * (1.0 - m)
    if family == GAMMA:
        return larger(m, E) * larger(m, E)
    return larger(m, E) if family == POISSON else 1.0


def binomial_deviance(y, m, w):
    if not 0.0 <= y <= 1.0:
        return NAN
    m, d = inside(m), 0.0
    if y > 0.0:
        d += y * ln(over(y, m))
    if y < 1.0:
        d += (1.0 - y) * ln(over(1.0 - y, 1.0 - m))
    return 2.0 * w * d


def poisson_deviance(y, m, w):
    if y < 0.0:
        return NAN
    m = larger(m, E)
    d = -(y - m)
    if y > 0.0:
        d += y * ln(over(y, m))
    return 2.0 * w * d


def gamma_deviance(y, m, w):
    """Of a NaN response that of E: it is not at or below 0, and `max` drops it."""
    if y <= 0.0:
        return NAN
    y, m = larger(y, E), larger(m, E)
    return 2.0 * w * (-ln(over(y, m)) + over(y - m, m))


def deviance(family, y, m, w):
    if family == GAUSSIAN:
        return w * ((y - m) * (y - m))
    return {BINOMIAL: binomial_deviance, POISSON: poisson_deviance, GAMMA: gamma_deviance}[family](y, m, w)


def uses_dispersion(family):
    return family in (GAUSSIAN, GAMMA)


def gaussian_aic(weights, total):
    """n (ln(2 pi total / n) + 1) + 2 less the logarithms of the weights above zero."""
    if not math.isfinite(total) or total <= 0.0:
        return INF
    n, logs = float(len(weights)), 0.0
    for w in weights:
        if w > 0.0:
            logs += ln(w)
    return n * (ln(2.0 * math.pi * total / n) + 1.0) + 2.0 - logs


def ln_dgamma(y, shape, scale):
    if not (y > 0.0 and shape > 0.0 and scale > 0.0):
        return -INF
    return -ln_gamma(shape) - shape * ln(scale) + (shape - 1.0) * ln(y) - over(y, scale)


def gamma_aic(y, mu, weights, total):
    """-2 times the weighted sum of log densities with shape 1 / d and scale mu d, plus 2; d is the deviance over the sum of weights."""
    n = 0.0
    for w in weights:
        n += w
    if n <= 0.0 or not math.isfinite(total) or total <= 0.0:
        return INF
    dispersion = larger(over(total, n), E)
    shape, logs = over(1.0, dispersion), 0.0
    for one, m, w in zip(y, mu, weights):
        logs += w * ln_dgamma(one, shape, larger(m, E) * dispersion)
    return -2.0 * logs + 2.0


def aic(family, y, mu, weights, total):
    if family == GAUSSIAN:
        return gaussian_aic(weights, total)
    return gamma_aic(y, mu, weights, total) if family == GAMMA else total
