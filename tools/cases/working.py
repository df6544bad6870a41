#!/usr/bin/env python3
"""usage: working.py > crates/cases_working/stdout
What `cases_working` must print, by Python's own doubles and the links and families of tools/glmm: w and z as in `pirls_with_workspace`, the offset,
both starts, and what a stop is told by. Stops where a careless reading would print the same, since the case would then show nothing."""
import struct, sys
from pathlib import Path

sys.path.append(str(Path(__file__).resolve().parents[1] / "glmm"))
from families import *
from elementary import text


def show(word, *xs):
    print(word, *map(text, xs))


def tells(xs, others):
    assert list(map(text, xs)) != list(map(text, others))


def total(xs):
    s = 0.0
    for x in xs:
        s = s + x
    return s


def weight(phi, wt, me, v):
    return larger(over((wt * me) * me, larger(phi, E) * larger(v, E)), E)


def response(eta, y, mu, me):
    return eta + over(y - mu, math.copysign(E, me) if abs(me) < E else me)


Y = [0.0, 1.0, 0.25, 3.0, -2.0, 1e300, 0.7, 0.1, 1.0, 5.0, 0.0, NAN]
ETA = [0.3, -1.2, 40.0, -800.0, 0.0, -0.0, 1e-9, 2.0, NAN, INF, -INF, 1e200]
MU = [0.6, 0.2, 1.0, 0.0, 0.5, -3.0, 1e300, 2.0, 0.1, NAN, INF, 1e-17]
WEIGHTS = [1.0, 0.3, 2.0, 0.0, -1.5, 0.7, 1e-300, 3.0, 0.1, 1.0, 0.9, 1e300]


def rows(family, link, phi, weights):
    me = [mu_eta(link, e) for e in ETA]
    v = [variance(family, m) for m in MU]
    w = [weight(phi, *a) for a in zip(weights, me, v)]
    z = [response(*a) for a in zip(ETA, Y, MU, me)]
    if link != IDENTITY:
        other = [mu_eta(link, m) for m in MU]
        tells(w, [weight(phi, *a) for a in zip(weights, other, v)])
        tells(z, [response(*a) for a in zip(ETA, Y, MU, other)])
    if link == LOG:
        tells(z, [e + over(y - m, d) for e, y, m, d in zip(ETA, Y, MU, me)])
    show("rows", 9.0, *w, 9.0, *z, 9.0)


rows(BINOMIAL, LOGIT, 1.0, WEIGHTS)
rows(BINOMIAL, CLOGLOG, 1.0, [1.0] * 12)
rows(POISSON, LOG, 1.0, WEIGHTS)
rows(GAUSSIAN, IDENTITY, 0.37, WEIGHTS)
rows(GAUSSIAN, INVERSE, 1e-20, [1.0] * 12)
rows(POISSON, SQRT, -2.5, WEIGHTS)
rows(GAMMA, INVERSE, 0.37, WEIGHTS)
rows(GAMMA, LOG, 1.0, [1.0] * 12)


def met(family, link, y, eta):
    mu, me = link_inv(link, eta), mu_eta(link, eta)
    for told in (False, True):  # that the mean is eta's: the same numbers
        show("met", weight(1.0, 1.0, me, variance(family, mu)), 9.0, response(eta, y, mu, me), 9.0)


assert E < link_inv(LOGIT, -36.0) and link_inv(LOGIT, 35.5) < 1.0 - E  # the last inside
assert E == link_inv(LOGIT, -36.1) and link_inv(LOGIT, 36.0) == 1.0 - E  # the first at the ends
for family, link in ((BINOMIAL, LOGIT), (BINOMIAL, CLOGLOG), (POISSON, LOG)):
    for y, eta in zip([0.0, 1.0, 0.25, 1.0, 0.0, 1.0, 0.0, 3.0, 0.7, 1.0, 0.0], [0.3, -1.2, -0.0, 35.5, 36.0, -36.0, -36.1, -800.0, 1e200, NAN, -INF]):
        met(family, link, y, eta)


def plus(offset, xs):
    return [x + o for x, o in zip(xs, offset)] if offset else xs


def with_offset(offset):
    x, beta, zb = [[1.0, 1e16], [0.1, -1e16], [0.7, 3.0], [1.0, 0.2], [1.0, -0.0]], [0.3, 1.0], [1.0, 1e16, -1e16, 0.1, -0.3]
    fixed = [total(a * b for a, b in zip(r, beta)) for r in x]
    raw = plus(offset, [f + b for f, b in zip(fixed, zb)])
    if offset:
        tells(raw, [f + b for f, b in zip(fixed, plus(offset, zb))])
    show("raw", *raw, 9.0)
    for link in (LOGIT, CLOGLOG, LOG, IDENTITY, INVERSE, SQRT):
        means = [0.25, 0.75, 0.1, 3.6, 0.0]
        eta = plus(offset, [link_fun(link, m) for m in means])
        show("start", 9.0, *means, 9.0, *eta, 9.0)
    means = [0.25, -0.75, 0.1, 3.6, 1e300]
    show("back", 9.0, *plus(offset, [ln(m) for m in means]), 9.0, *means, 9.0)


with_offset([0.1, -0.2, 1.0, 1e16, -0.7])
with_offset([])


def means(family):
    y = [0.0, 1.0, 0.3, -0.0, 1e16]
    show("means", *[start_mean(family, v) for v in y], 9.0)
    for weights in ([4.0, 2.0, 3.0, 0.0, 0.5], [1.0] * 5):
        show("means", *[trials_mean(w, v) for w, v in zip(weights, y)], 9.0)


def deviances(family, y, weights):
    mu = [0.4, 0.6, 0.3, 1.5]
    devs = [deviance(family, *a) for a in zip(y, mu, weights or [1.0] * 4)]
    show("deviances", 9.0, *mu, 9.0, *devs, 9.0)
    dev = total(devs)
    show("fit", dev, aic(family, y, mu, weights or [1.0] * 4, dev) - 2.0 if uses_dispersion(family) else dev)


for family in (BINOMIAL, POISSON, GAUSSIAN):
    means(family)
    deviances(family, [0.0, 1.0, 0.3, 0.9], [])
    deviances(family, [0.0, 1.0, 0.3, 0.9], [1.0, 0.3, 0.0, -2.0])
means(GAMMA)
deviances(GAMMA, [0.0, 1.0, 0.3, 0.9], [])
deviances(GAMMA, [0.7, 1.0, 0.3, 0.9], [])
deviances(GAMMA, [0.7, 1.0, 0.3, 0.9], [1.0, 0.3, 0.0, 2.0])

for line in (Path(__file__).parent / "mustart.txt").read_text().splitlines():  # R's own start, by tools/lme4
    if not line.startswith("#"):
        w, y, mean = (struct.unpack(">d", bytes.fromhex(digits))[0] for digits in line.split())
        assert text(trials_mean(w, y)) == line.split()[2], line

show("pivots", *[total(ln(abs(d)) for d in ds) for ds in ([0.3, -7.1, 1e-300], [2.0, -0.0, 3.0], [])])
