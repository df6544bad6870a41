#!/usr/bin/env python3
"""usage: fit.py > crates/cases_fit/stdout
       fit.py --stdin > crates/cases_fit/stdin
What `cases_fit` must print, and the calls that it is fed: document 01's table of refusals (table.py) asked the same calls, then its fit in Python's doubles (tools/glmm/fit.py).
Stops where the oracle (tools/oracle) answers other bits or another reason for Laplace, where a number of the table is not given, or where a quadrature declines for
another cause than the case is for. Every call leaves +0.0 in the named lengths of the work slices, or all of them as lent."""
import struct, sys

sys.dont_write_bytecode = True
from rule import answer
from table import FAMILIES, LINKS, RESULTS, STARTS, TABLE, laid
import fit
from form import job_bytes
from reader import read

NAN, INF = float("nan"), float("inf")
ONES, SLOPES = [1.0] * 4, [0.3, -0.7, 1.1, 0.2]
X = [1.0, 0.3, 1.0, -0.7, 1.0, 1.1, 1.0, 0.2]
NUMBERS = [*ONES, *SLOPES, *ONES, *ONES, *X, 1.0, 3.0, 0.0, 5.0, 0.25, 0.5, 0.0, 1.0, 4.0, 2.0, 3.0, 1.0, 0.1, 0.2, -0.3, 0.0, 1.5, -0.25, 3.0, 0.75, 0.5, 0.75, 0.4, 1.25,
           0.7, 0.8, 0.3, 0.6, 1e9, 1e9, 3e8, 1e9, 7e8, 3e8, 1e200, NAN, INF, 9.0, 0.1, 0.5, 3.0, 1.0, 1.0, 1.0, 1e-12, 0.0, 3.0, 1.0, 1e164, *X[:6], 1.0, 1e4, *X[:6], 1e10, 0.0,
           *[0.5] * 4, -1e308, 1.0, 1.0, 1.0]
HALVES, HUGE, NONE = len(NUMBERS) - 8, len(NUMBERS) - 4, len(NUMBERS)
ROWS = [[0, 2, 4], [0, 4, 8, 10, 12], [0, 4, 8, 8, 8, 8, 8], [0, 4, 4, 4, 4, 4, 4, 4, 4, 8], [0, 2, 1, 3], [0, 1, 2, 3, 0, 1, 2, 3, 0, 2, 0, 2],
        [0, 1, 2, 3, 0, 1, 2, 3, 0, 2, 1, 3], [0, 2, 1, 4], [2, 0, 1, 3]]
INPUTS = ["theta", "y", "weights", "offset", "x", "starts", "columns", "values"]
WORK = ["rows", "matrices", "terms"]
given, declines = set(), []


def hexes(values):
    """Every NaN is told by one pattern."""
    return [struct.pack(">d", v if v == v else NAN).hex().upper() for v in values]


def padded(row):
    """A row of the program has twelve numbers; it fills with the last start, or with 0."""
    row = ROWS[row]
    return [*row, *[row[-1] if len(row) in (3, 5, 7, 10) else 0] * (12 - len(row))]


def long(theta, weights, offset, x, starts, entries, p, q):
    work = [64, 3 * q * q + 4 * p * p + 2 * q * p + 12 * (q + p), 7000]
    return [theta, 4, weights, offset, x, starts, entries, entries, p, p, p, q, q, 4, 4, 4, p * p, *work]


def asked(settings, places, lengths):
    """The call as table.py takes it."""
    lists = [*(NUMBERS[at:at + n] for at, n in zip(places, lengths[:5])), padded(places[6])[:lengths[5]], padded(places[7])[:lengths[6]], NUMBERS[places[5]:places[5] + lengths[7]]]
    assert [len(xs) for xs in lists] == lengths[:8]
    return settings | dict(zip(INPUTS, lists)) | dict(zip(RESULTS, lengths[8:17])) | {"work_" + name: n for name, n in zip(WORK, lengths[17:])}


def fed(word, c):
    """A call in words of eight bytes, in the order in which crates/cases_fit/src/main.rt takes them; a name stands behind its length, the lists at fixed places."""
    lists = [c[name] for name in INPUTS]
    data = struct.pack(f">Q{len(word)}s", len(word), word.encode())
    data += struct.pack(">22Q", *laid(22, dict(zip([0, 10], lists[5:7])))) + struct.pack(">57d", *laid(57, dict(zip([0, 21, 26, 31, 36, 45], [*lists[:5], lists[7]]))))
    settings = [FAMILIES.index(c["family"]), LINKS.index(c["link"]), c["n_agq"], 2**64 - 1 if c["limit"] is None else c["limit"], c["n"], c["p"], c["rows"], c["entries"], STARTS.index(c["start"])]
    blocks = [*c["blocks"], (0, 0)][:2]
    lent = [c[name] for name in [*RESULTS, *("work_" + name for name in WORK)]]
    return data + struct.pack(">34Q", *settings, len(c["blocks"]), *(m for m, _ in blocks), *(k for _, k in blocks), *map(len, lists), *lent)


def job_of(c):
    rows = [[[column, value] for column, value in zip(c["columns"][a:b], c["values"][a:b])] for a, b in zip(c["starts"], c["starts"][1:])]
    x = [c["x"][i * c["p"]:(i + 1) * c["p"]] for i in range(c["n"])]
    return {"family": c["family"], "link": c["link"], "n_agq": c["n_agq"], "limit": c["limit"], "blocks": [{"m": m, "k": k} for m, k in c["blocks"]], "theta": c["theta"], "y": c["y"],
            "weights": c["weights"] or None, "offset": c["offset"] or None, "x": x, "zt": rows, "version": 2, "start": c["start"]}


def fitted(c):
    """What the fit answers, after a look at the oracle's answer."""
    number, order, flag, iterations, account, why, results = fit.call(read(job_bytes(job_of(c))))
    end, vectors = answer(job_of(c))
    assert end == {"end": number, "order": order, "disp": flag, "iters": iterations, **vars(account), "why": why}, (c, end)
    assert vectors == {name: hexes(values) for name, values in results.items()}, c
    return number, [order, flag, iterations, *vars(account).values(), why], results


def told(word, number, counts, results, wiped):
    named = zip(["order", "disp", "iters", "fits", "solves", "tries", "points", "eta", "mean", "pwrss", "ok", "why"], counts)
    deviance, phi = (hexes(results[name])[0] if results else "0" * 16 for name in ("deviance", "phi"))
    print(word + ":", number, *(f"{name} {count}" for name, count in named), "deviance", deviance, "phi", phi)
    for name in RESULTS:
        print(*[name, *hexes(results[name])] if results else [name + " as lent;"], end="\n" if results else " ")
    print("; ".join(f"{name} wiped {n}" if wiped else f"{name} as lent" for name, n in zip(WORK, wiped or [0] * 3)))


def run(word, family, link, n_agq, blocks, places, lengths, p=2, q=2, entries=4, n=4, limit=None, cause=None, start="usual"):
    settings = dict(family=family, link=link, n_agq=n_agq, limit=limit, n=n, p=p, rows=q, entries=entries, start=start, blocks=blocks)
    c = asked(settings, places, lengths)
    if "--stdin" in sys.argv:
        return sys.stdout.buffer.write(fed(word, c))
    refusal = next((number for number, good in TABLE if not good(c)), None)
    if refusal:
        given.add(refusal)
        return told(word, refusal, [0] * 12, None, None)
    declines.clear()
    number, counts, results = fitted(c)
    cause = "wish" if n_agq < 2 else cause
    assert set(declines) == ({cause} if cause else set()), (word, declines)
    given.add(number)
    told(word, number, counts, results, long(0, 0, 0, 0, 0, 0, p, q)[17:])


def group_lengths(weights, offset):
    return long(1, weights, offset, 8, 3, 4, 2, 2)


def groups(word, family, link, n_agq, y, weights=NONE, offset=NONE, theta=48, x=16, **others):
    lengths = group_lengths(0 if weights == NONE else 4, 0 if offset == NONE else 4)
    run(word, family, link, n_agq, [(2, 1)], [theta, y, weights, offset, x, 8, 0, 4], lengths, **others)


def effects(word, link, n_agq, blocks, theta, starts, columns, cause=None):
    """One column of X."""
    q, numbers = sum(m * k for m, k in blocks), sum(k * (k + 1) // 2 for _, k in blocks)
    entries = ROWS[starts][q]
    run(word, "poisson", link, n_agq, blocks, [theta, 24, NONE, NONE, 0, 0, starts, columns], long(numbers, 0, 0, 4, q + 1, entries, 1, q), 1, q, entries, cause=cause)


def good(word, places={}, lengths={}, **sizes):
    """The call whose faults are tried."""
    every_place, every_length = [48, 28, 32, 36, 16, 8, 0, 4], group_lengths(4, 4)
    run(word, "binomial", "logit", 3, [(2, 1)], [places.get(i, at) for i, at in enumerate(every_place)], [lengths.get(i, n) for i, n in enumerate(every_length)], **sizes)


def laplace():
    """Number 0: every family with every link that is carried; of the three that are called so the dispersion doesn't settle. Twice a huge weight is infinite: a negative one
    makes the deviance NaN."""
    groups("log", "poisson", "log", 1, 24)
    groups("identity", "poisson", "identity", 0, 32, offset=36)
    groups("sqrt", "poisson", "sqrt", 1, 24, offset=36)
    groups("logit", "binomial", "logit", 1, 28, 32)
    groups("probit", "binomial", "probit", 1, 28, 32, 36)
    groups("cloglog", "binomial", "cloglog", 1, 28, 32, 36)
    groups("Gaussian", "gaussian", "identity", 1, 40, 32, 36)
    groups("Gaussian log", "gaussian", "log", 1, 44)
    groups("inverse", "gaussian", "inverse", 1, 44)
    groups("unsettled", "gaussian", "identity", 1, 25)
    groups("unsettled log", "gaussian", "log", 1, 22)
    groups("Gamma", "gamma", "inverse", 1, 44)
    groups("Gamma identity", "gamma", "identity", 1, 44)
    groups("Gamma log", "gamma", "log", 1, 44, 32, 36)
    groups("unsettled Gamma", "gamma", "identity", 1, 32)
    groups("NaN", "binomial", "logit", 1, HALVES, HUGE)
    for link in ("logit", "probit", "cloglog"):
        groups(f"trials, {link}", "binomial", link, 1, 28, 32, 36, start="trials")
    groups("trials, weights absent", "binomial", "logit", 1, 28, start="trials")
    groups("weights absent", "binomial", "logit", 1, 28)


def quadrature():
    """Number 0: one effect, several, all of two blocks, of which the last has 6,561 points. Then those that decline: too many effects, no order with few enough points,
    a log sum, the block's inverse, its factor."""
    groups("order 3", "poisson", "log", 2, 24)
    groups("order 11", "binomial", "logit", 31, 28, 32, 36)
    groups("trials, order 5", "binomial", "logit", 5, 28, 32, start="trials")
    groups("probit, order 7", "binomial", "probit", 7, 28, 32, 36)
    groups("order 5", "gaussian", "identity", 4, 40, 32, 36)
    groups("Gamma order 3", "gamma", "log", 2, 44)
    effects("effects 7", "log", 7, [(1, 2)], 48, 1, 5)
    effects("effects 11", "sqrt", 12, [(1, 2)], 48, 1, 5)
    effects("pairs", "log", 3, [(2, 2)], 48, 1, 5)
    effects("joint 3", "log", 3, [(1, 2), (2, 1)], 48, 1, 6)
    effects("joint 9", "sqrt", 11, [(1, 2), (2, 1)], 48, 1, 6)
    effects("nine", "log", 3, [(8, 1), (1, 1)], 48, 3, 5, "effects")
    effects("six", "log", 3, [(1, 6)], 0, 2, 5, "cap")
    groups("sum", "poisson", "log", 3, 24, HUGE, cause="log sum")
    effects("Inverse", "sqrt", 3, [(2, 2)], 52, 1, 5, "inverse")
    effects("Factor", "sqrt", 3, [(2, 2)], 55, 1, 5, "factor")


def ends():
    """Numbers 10 to 12, the last by an enormous offset; number 13 after 100 iterations, after one and after none."""
    groups("theta", "poisson", "log", 3, 24, theta=58)
    groups("columns", "poisson", "log", 3, 24, x=8)
    groups("offset", "poisson", "identity", 3, 24, offset=55)
    groups("no rest", "poisson", "sqrt", 3, 26)
    for limit in [1, 0]:
        groups(f"limit {limit}", "poisson", "log", 3, 24, limit=limit)


def refused_tries():
    """Tries that are refused for eta, for a mean and for PWRSS."""
    groups("etas", "gaussian", "inverse", 3, 61, limit=6)
    groups("means", "poisson", "log", 1, 24, 65, x=73)
    groups("squares", "poisson", "identity", 3, 69, x=81)


def refusals():
    """Number 1, of each size and of the limit; each slice one short and one longer: number 2, of the last three 7 where they are short and 0 where they are longer; number 6, of the
    row starts and the columns; number 3, of each list of numbers; number 4; number 9 of each family that has a range, of Gamma for 0; number 27 of each other family, of a
    weight below 0, and behind 9."""
    for n, p, q, entries in [(0, 2, 2, 4), (513, 2, 2, 4), (4, 0, 2, 4), (4, 17, 2, 4), (4, 2, 3, 4), (4, 2, 2, 8193)]:
        good("sizes", n=n, p=p, q=q, entries=entries)
    groups("limit 1001", "poisson", "log", 3, 24, limit=1001)
    for i, n in enumerate(group_lengths(4, 4)):
        for other in [n - 1, n + 1]:
            good(f"slice {i} of {other}", lengths={i: other})
    for i, at in [(6, 1), (6, 8), (7, 7), (7, 8), (0, 59), (1, 57), (2, 56), (3, 57), (4, 53), (5, 57)]:
        good(f"list {i} at {at}", {i: at})
    groups("logit", "poisson", "logit", 3, 24)
    groups("sqrt", "gaussian", "sqrt", 3, 40)
    groups("Poisson probit", "poisson", "probit", 3, 24)
    groups("probit, range", "binomial", "probit", 3, 24)
    groups("Gamma sqrt", "gamma", "sqrt", 3, 44)
    good("list 1 at 24", {1: 24})
    groups("below 0", "poisson", "log", 3, 4)
    groups("Gamma of 0", "gamma", "inverse", 1, 24)
    groups("Poisson trials", "poisson", "log", 3, 24, start="trials")
    groups("Gaussian trials", "gaussian", "identity", 3, 40, start="trials")
    groups("Gamma trials", "gamma", "log", 3, 44, start="trials")
    groups("trials below 0", "binomial", "logit", 1, HALVES, HUGE, start="trials")
    groups("trials, range", "binomial", "logit", 3, 24, HUGE, start="trials")


def noted(declined, number, cause):
    """Every reason for Laplace is noted by its cause."""
    declines.append(cause)


fit.Declined.__init__ = noted
laplace()
quadrature()
ends()
refused_tries()
refusals()
assert "--stdin" in sys.argv or given == {*range(5), 6, 7, 9, *range(10, 14), 27}
