#!/usr/bin/env python3
"""usage: glmm_c.py > crates/cases_glmm_c/stdout
       glmm_c.py --stdin > crates/cases_glmm_c/stdin
What `cases_glmm_c` must print, and what it is fed: lengths by document 01's sizes, the elementary functions by elementary.py, then calls with a job: document 01's
reading of it (tools/glmm/reader.py), its table over the lent lengths, and its fit in Python's doubles (tools/glmm/fit.py). Stops where the oracle (tools/oracle)
answers other bits, or where a number of an answer is not given. The counts, the two numbers in front of the results and what is left of each buffer are as
include/glmm.h says."""
import struct, sys

sys.dont_write_bytecode = True
from rule import answer
from elementary import exp, exp_m1, ln, ln_1p, sqrt, text
from log_gamma import ln_gamma
from normal import norm_cdf, norm_pdf, norm_quantile
import fit
from form import job_bytes
from reader import Refused, check_table, parse

NAN, INF = float("nan"), float("inf")
LENT, MARK, COUNTS = 9.25, 77, 14
ARRAYS = {"rows": 72, "matrices": 152, "terms": 7008, "results": 40, "counts": 16}
SIZES = [(1, 1, 1), (4, 2, 2), (512, 16, 32), (0, 1, 1), (513, 1, 1), (1, 0, 1), (1, 17, 1), (1, 1, 0), (1, 1, 33), (2**64 - 1, 2, 2), (2, 2**63, 2), (2, 2, 2**64 - 1),
         (512, 1, 1), (1, 16, 1), (1, 1, 32), (100, 3, 7)]
NUMBERS = [0.0, -0.0, 1.0, -1.0, 0.5, -0.5, 2.0, 1e-20, 3.75, -3.75, 700.0, 1e300, 5e-324, INF, -INF, NAN]
ORDER = ["deviance", "phi", "beta", "se", "z", "u", "b", "mu", "eta", "residual", "v"]
given = set()


def job(**changes):
    """Four responses in two groups, which can be fitted."""
    about = {"family": "poisson", "link": "log", "n_agq": 1, "blocks": [{"m": 2, "k": 1}], "theta": [0.75], "y": [1.0, 3.0, 0.0, 5.0],
             "x": [[1.0, 0.3], [1.0, -0.7], [1.0, 1.1], [1.0, 0.2]], "zt": [[[0, 1.0], [2, 1.0]], [[1, 1.0], [3, 1.0]]]}
    return about | changes


def asked(n, p, q):
    return {"rows": 16 * n, "matrices": 3 * q * q + 4 * p * p + 2 * q * p + 12 * (q + p), "terms": 7000, "results": 2 + 3 * p + 2 * q + 3 * n + p * p}


def fitted(about):
    """What the fit answers, after a look at the oracle's answer."""
    number, order, flag, iterations, account, why, results = fit.call(parse(job_bytes(about)))
    end, vectors = answer(about)
    assert end == {"end": number, "order": order, "disp": flag, "iters": iterations, **vars(account), "why": why}, (about, end)
    assert vectors == {name: [text(x) for x in values] for name, values in results.items()}, about
    counts = [number, order, flag, iterations, account.fits, account.solves, account.tries, account.points, 0, why, account.eta, account.mean, account.pwrss, account.ok]
    return counts, [x for name in ORDER for x in results[name]] if results else []


def refusal(data, theta, lent):
    """The refusal of a call and its byte, or no number; and the lengths that the job asks for."""
    if lent["counts"] < COUNTS:
        return 2, None, {}
    try:
        read = parse(data)
    except Refused as fault:
        return *fault.args, {}
    wanted, needed = asked(read.n, read.p, read.q), len(read.theta)
    if theta is not None:
        read.theta = theta
    if len(read.theta) != needed or lent["results"] < wanted["results"]:
        return 2, 0, wanted
    if any(lent[name] < wanted[name] for name in ("rows", "matrices", "terms")):
        return 7, 0, wanted
    try:
        check_table(read, [read.y])
    except Refused as fault:
        return *fault.args, wanted
    return None, 0, wanted


def told(word, returned, counts, wiped, results):
    counts = [*counts, *[MARK] * (ARRAYS["counts"] - len(counts))]
    work = [word for name in ("rows", "matrices", "terms") for word in (name, wiped.get(name, 0), ARRAYS[name])]
    print(word + ": returned", returned, "counts", *counts, *work)
    print("results", *map(text, [*results, *[LENT] * (ARRAYS["results"] - len(results))]))


def fed(word, data, theta, lent):
    """A call in the order in which crates/cases_glmm_c/src/main.rt takes it: a name and a job behind their lengths, else words of eight bytes."""
    thetas = theta or []
    parts = [struct.pack(f">Q{len(word)}sQQ{len(data)}s", len(word), word.encode(), theta is not None, len(data), data)]
    parts += [struct.pack(">4dQ", *thetas, *[0.0] * (4 - len(thetas)), len(thetas)), struct.pack(">5Q", *(lent[name] for name in ARRAYS))]
    return b"".join(parts)


def run(word, about, theta=None, data=None, own=None, **lent):
    """A call with a job: its bytes where they are given, its own theta altered where another stands beside it; the buffers are as long as asked, but for those named."""
    sound = data is None
    data = job_bytes(about | ({"theta": own} if own else {})) if sound else data
    lent = asked(len(about["y"]), len(about["x"][0]), len(about["zt"])) | {"counts": COUNTS} | lent
    if "--stdin" in sys.argv:
        return sys.stdout.buffer.write(fed(word, data, theta, lent))
    number, byte, wanted = refusal(data, theta, lent)
    if number is None:
        counts, results = fitted(about if theta is None else about | {"theta": theta})
        given.add(counts[0])
        return told(word, 0, counts, wanted, results)
    given.add(number)
    told(word, number, [] if byte is None else [number, *[0] * 7, byte, *[0] * 5], {}, [])


def fits():
    """Number 0: Laplace and quadrature, phi of its own that settles and that doesn't, two blocks, several effects, a quadrature that declines; then numbers 10 to 13, which return 0; then
    tries that are refused for each of the three tests, which are counted at places of their own."""
    run("log", job())
    run("logit", job(family="binomial", link="logit", n_agq=3, y=[0.25, 0.5, 0.0, 1.0], weights=[4.0, 2.0, 3.0, 1.0], offset=[0.1, 0.2, -0.3, 0.0]))
    run("trials", job(version=2, start="trials", family="binomial", link="logit", n_agq=3, y=[0.25, 0.5, 0.0, 1.0], weights=[4.0, 2.0, 3.0, 1.0]))
    run("probit", job(family="binomial", link="probit", n_agq=3, y=[0.25, 0.5, 0.0, 1.0], weights=[4.0, 2.0, 3.0, 1.0], offset=[0.1, 0.2, -0.3, 0.0]))
    run("version 2", job(version=2))
    run("Gaussian", job(family="gaussian", link="identity", n_agq=5, y=[1.5, -0.25, 3.0, 0.75], weights=[4.0, 2.0, 3.0, 1.0]))
    run("Gamma", job(family="gamma", link="log", n_agq=3, y=[1.5, 0.25, 3.0, 0.75], weights=[4.0, 2.0, 3.0, 1.0]))
    run("unsettled", job(family="gaussian", link="identity", y=[3.0, 0.0, 5.0, 0.25]))
    run("two blocks", job(n_agq=3, blocks=[{"m": 2, "k": 1}, {"m": 1, "k": 1}], theta=[0.75, 0.5], zt=[[[0, 1.0], [2, 1.0]], [[1, 1.0], [3, 1.0]], [[0, 1.0], [1, 0.5], [3, 1.0]]]))
    run("two effects", job(n_agq=7, blocks=[{"m": 1, "k": 2}], theta=[0.5, 0.25, 0.4], x=[[1.0]] * 4, zt=[[[i, 1.0] for i in range(4)], [[0, 0.3], [1, -0.7], [2, 1.1], [3, 0.2]]]))
    run("log sum", job(n_agq=3, weights=[-1e308, 1.0, 1.0, 1.0]))
    run("theta", job(theta=[1e200]))
    run("columns", job(x=[[1.0, 1.0]] * 4))
    run("offset", job(link="identity", offset=[1e9, 3e8, 1e200, 1e9]))
    run("limit 1", job(limit=1))
    run("refused etas", job(family="gaussian", link="inverse", y=[9.0, 0.1, 0.5, 3.0], limit=6))
    run("refused means", job(x=[*job()["x"][:3], [1.0, 1e4]], weights=[1.0, 1.0, 1.0, 1e-12]))
    run("refused sums", job(link="identity", y=[0.0, 3.0, 1.0, 1e164], x=[*job()["x"][:3], [1e10, 0.0]], zt=[[[3, 1.0]], [[3, 1.0]]]))


def refusals():
    """Refusals of the reading with their bytes, then those of the table."""
    whole = job_bytes(job())
    run("no byte", job(), data=b"")
    run("cut", job(), data=whole[:-1])
    run("version", job(), data=b"\x35" + whole[1:])
    run("spare bit", job(), data=whole[:7] + b"\xff" + whole[8:])
    second = job_bytes(job(version=2))
    run("no start", job(version=2), data=second[:6])
    run("zero bit", job(version=2), data=second[:6] + b"\x81" + second[7:])
    run("more", job(), data=whole + b"\0")
    run("limit 1022", job(), data=whole[:4] + bytes([whole[4] | 3, 0xFE]) + whole[6:])
    run("link 7", job(link=7))
    run("no response", job(n=0), data=job_bytes(job(n=0)))
    run("order of columns", job(zt=[[[2, 1.0], [0, 1.0]], [[1, 1.0], [3, 1.0]]]))
    run("NaN", job(y=[1.0, NAN, 0.0, 5.0]))
    run("sqrt", job(family="binomial", link="sqrt"))
    run("Poisson probit", job(link="probit"))
    run("probit, above 1", job(family="binomial", link="probit"))
    run("Gamma sqrt", job(family="gamma", link="sqrt"))
    run("Gamma of 0", job(family="gamma", link="inverse"))
    run("above 1", job(family="binomial", link="logit"))
    run("Poisson trials", job(version=2, start="trials"))
    run("trials below 0", job(version=2, start="trials", family="binomial", link="logit", y=[0.25, 0.5, 0.0, 1.0], weights=[4.0, 2.0, -3.0, 1.0]))
    run("trials above 1", job(version=2, start="trials", family="binomial", link="logit", weights=[4.0, 2.0, -3.0, 1.0]))


def lengths():
    """Each buffer one short and one longer; two short at once; no room for the counts before anything else."""
    for name, n in [*asked(4, 2, 2).items(), ("counts", COUNTS)]:
        run(f"{name} short", job(), **{name: n - 1})
        run(f"{name} longer", job(), **{name: n + 1})
    run("results and rows", job(), results=27, rows=63)
    run("rows and NaN", job(y=[1.0, NAN, 0.0, 5.0]), rows=63)
    run("counts and job", job(), data=b"", counts=COUNTS - 1)
    run("none", job(), rows=0, matrices=0, terms=0, results=0, counts=0)


def beside():
    """The job's own theta is not looked at; the one beside it is, as long as it must be."""
    run("beside", job(), [0.75], own=[NAN])
    run("beside 2", job(), [0.25], own=[0.75])
    run("beside short", job(), [], own=[0.75])
    run("beside longer", job(), [0.75, 0.5], own=[0.75])
    run("beside NaN", job(), [NAN], own=[0.75])
    run("beside cut", job(), [0.75], data=job_bytes(job())[:-1])
    run("beside counts", job(), [0.75], own=[0.5], counts=COUNTS - 1)


def first():
    """The lengths and the elementary functions."""
    if "--stdin" in sys.argv:
        return sys.stdout.buffer.write(struct.pack(">48Q", *(n for sizes in SIZES for n in sizes)) + struct.pack(">16d", *NUMBERS))
    for n, p, q in SIZES:
        few_n, few_p, few_q, wanted = 1 <= n <= 512, 1 <= p <= 16, 1 <= q <= 32, asked(n, p, q)
        print("lengths", few_n * wanted["rows"], (few_p and few_q) * wanted["matrices"], wanted["terms"], (few_n and few_p and few_q) * wanted["results"])
    for x in NUMBERS:
        print("at", *map(text, (x, sqrt(x), exp(x), ln(x), ln_1p(x), exp_m1(x), ln_gamma(x), norm_cdf(x), norm_pdf(x), norm_quantile(x))))


first()
fits()
refusals()
lengths()
beside()
assert "--stdin" in sys.argv or given == {*range(5), 6, 7, 9, *range(10, 14), *range(20, 25), 27}
