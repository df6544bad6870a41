#!/usr/bin/env python3
"""usage: blocks_c.py > crates/cases_blocks_c/stdout
       blocks_c.py --stdin > crates/cases_blocks_c/stdin
What `cases_blocks_c` must print, and the calls that it is fed: document 01's table of refusals (table.py) asked the same calls, then its fit in Python's doubles (tools/glmm/fit.py).
Stops where the oracle (tools/oracle) answers other bits, or where a number of an answer is not given. As include/glmm.h says, a code that names no family or link is refused as a
link that is not valid for its family, and a limit of 1023 is one that is not given."""
import struct, sys

sys.dont_write_bytecode = True
from rule import answer
from table import FAMILIES, LINKS, RESULTS, STARTS, TABLE, laid
import fit
from form import job_bytes
from reader import parse

NAN, LENT, NOT_GIVEN = float("nan"), 9.25, 1023
INPUTS = ["theta", "y", "weights", "offset", "x", "starts", "columns", "values"]
WORK = ["rows", "matrices", "terms"]
COUNTS = ["order", "disp", "iters", "fits", "solves", "tries", "points", "why", "eta", "mean", "pwrss", "ok"]
ARRAYS = dict(zip(RESULTS, [3, 3, 3, 5, 5, 5, 5, 5, 5])) | {"rows": 72, "matrices": 128, "terms": 7008}
given = set()


def job(**changes):
    """Four responses in two groups, which can be fitted."""
    about = {"family": "poisson", "link": "log", "n_agq": 1, "limit": None, "blocks": [{"m": 2, "k": 1}], "theta": [0.75], "y": [1.0, 3.0, 0.0, 5.0], "weights": None, "offset": None,
             "x": [[1.0, 0.3], [1.0, -0.7], [1.0, 1.1], [1.0, 0.2]], "zt": [[[0, 1.0], [2, 1.0]], [[1, 1.0], [3, 1.0]]]}
    return about | changes


def two(**changes):
    """The same with a second block, of one group."""
    return job(blocks=[{"m": 2, "k": 1}, {"m": 1, "k": 1}], theta=[0.75, 0.5], zt=[*job()["zt"], [[0, 1.0], [1, 0.5], [3, 1.0]]], **changes)


def call_of(about):
    """The call that a job stands for, as table.py takes it, with codes and buffers as long as asked."""
    n, p, q = len(about["y"]), len(about["x"][0]), len(about["zt"])
    entries = [entry for row in about["zt"] for entry in row]
    c = dict(family=FAMILIES.index(about["family"]), link=LINKS.index(about["link"]), n_agq=about["n_agq"], limit=NOT_GIVEN if about["limit"] is None else about["limit"], n=n, p=p, rows=q,
             entries=len(entries), start=STARTS.index(about.get("start", "usual")), blocks=[(block["m"], block["k"]) for block in about["blocks"]], theta=about["theta"], y=about["y"], weights=about["weights"] or [],
             offset=about["offset"] or [], x=[value for row in about["x"] for value in row], starts=[sum(map(len, about["zt"][:i])) for i in range(q + 1)],
             columns=[column for column, _ in entries], values=[value for _, value in entries])
    return c | dict(zip(RESULTS, [p, p, p, q, q, n, n, n, p * p])) | {"work_rows": 16 * n, "work_matrices": 3 * q * q + 4 * p * p + 2 * q * p + 12 * (q + p), "work_terms": 7000}


def refusal(c):
    """The first number of the table that the call meets."""
    known = c["family"] < len(FAMILIES) and c["link"] < len(LINKS) and c["start"] < len(STARTS)
    names = {"family": FAMILIES[c["family"]], "link": LINKS[c["link"]], "start": STARTS[c["start"]]} if known else {"family": "poisson", "link": "logit", "start": "usual"}
    asked = c | names | {"limit": None if c["limit"] == NOT_GIVEN else c["limit"]}
    return next((number for number, good in TABLE if not good(asked)), None)


def hexes(values):
    return [struct.pack(">d", value).hex().upper() for value in values]


def fitted(about):
    """What the fit answers, after a look at the oracle's answer."""
    number, order, flag, iterations, account, why, results = fit.call(parse(job_bytes(about)))
    end, vectors = answer(about)
    assert end == {"end": number, "order": order, "disp": flag, "iters": iterations, **vars(account), "why": why}, (about, end)
    assert vectors == {name: hexes(values) for name, values in results.items()}, about
    return number, [order, flag, iterations, *(end[name] for name in COUNTS[3:])], results


def told(word, number, counts, results, wiped):
    named = zip(COUNTS, counts)
    deviance, phi = (hexes(results[name])[0] if results else "0" * 16 for name in ("deviance", "phi"))
    print(word + ":", number, *(f"{name} {count}" for name, count in named), "deviance", deviance, "phi", phi)
    for name in RESULTS:
        values = results[name] if results else []
        print(name, *hexes([*values, *[LENT] * (ARRAYS[name] - len(values))]))
    print(*(word for name in WORK for word in (name, wiped.get("work_" + name, 0), ARRAYS[name])))


def fed(word, c):
    """A call in words of eight bytes, in the order in which crates/cases_blocks_c/src/main.rt takes them; a name stands behind its length, the lists at fixed places. Behind the
    blocks stand others that the list must not have."""
    lists = [c[name] for name in INPUTS]
    data = struct.pack(f">Q{len(word)}s", len(word), word.encode())
    data += struct.pack(">19Q", *laid(19, dict(zip([0, 6], lists[5:7])))) + struct.pack(">41d", *laid(41, dict(zip([0, 4, 9, 14, 19, 28], [*lists[:5], lists[7]]))))
    settings = [c[name] for name in ("family", "link", "n_agq", "limit", "n", "p", "rows", "entries", "start")]
    blocks = [number for block in [*c["blocks"], (2, 1), (2, 1)][:2] for number in block]
    lent = [c[name] for name in [*RESULTS, *("work_" + name for name in WORK)]]
    return data + struct.pack(">34Q", *settings, len(c["blocks"]), *blocks, *map(len, lists), *lent)


def run(word, about, **changes):
    """The call that a job stands for, but for what is named."""
    c = call_of(about) | changes
    assert len(c) == len(call_of(about)) and len(c["blocks"]) <= 2
    if "--stdin" in sys.argv:
        return sys.stdout.buffer.write(fed(word, c))
    number = refusal(c)
    if number is None:
        number, counts, results = fitted(about)
        given.add(number)
        return told(word, number, counts, results, call_of(about))
    given.add(number)
    told(word, number, [0] * len(COUNTS), None, {})


def fits():
    """Number 0, of a list of one block and of two, by Laplace and by quadrature, the blocks in either order; phi of its own that settles and that doesn't; a quadrature that declines;
    then numbers 10 to 13; then tries that are refused for each of the three tests."""
    run("one", job())
    run("two", two())
    run("one, order 3", job(family="binomial", link="logit", n_agq=3, y=[0.25, 0.5, 0.0, 1.0], weights=[4.0, 2.0, 3.0, 1.0], offset=[0.1, 0.2, -0.3, 0.0]))
    run("trials", job(version=2, start="trials", family="binomial", link="logit", y=[0.25, 0.5, 0.0, 1.0], weights=[4.0, 2.0, 3.0, 1.0]))
    run("probit", job(family="binomial", link="probit", n_agq=3, y=[0.25, 0.5, 0.0, 1.0], weights=[4.0, 2.0, 3.0, 1.0], offset=[0.1, 0.2, -0.3, 0.0]))
    run("trials, no weights", job(version=2, start="trials", family="binomial", link="cloglog", y=[0.25, 0.5, 0.0, 1.0]))
    run("two, order 3", two(n_agq=3))
    run("pair and groups", job(n_agq=3, blocks=[{"m": 1, "k": 2}, {"m": 2, "k": 1}], theta=[0.5, 0.25, 0.4, 0.75], x=[[1.0]] * 4,
                               zt=[[[i, 1.0] for i in range(4)], [[0, 0.3], [1, -0.7], [2, 1.1], [3, 0.2]], *job()["zt"]]))
    run("groups and pair", job(n_agq=3, blocks=[{"m": 2, "k": 1}, {"m": 1, "k": 2}], theta=[0.75, 0.5, 0.25, 0.4], x=[[1.0]] * 4,
                               zt=[*job()["zt"], [[i, 1.0] for i in range(4)], [[0, 0.3], [1, -0.7], [2, 1.1], [3, 0.2]]]))
    run("Gaussian", job(family="gaussian", link="identity", n_agq=5, y=[1.5, -0.25, 3.0, 0.75], weights=[4.0, 2.0, 3.0, 1.0]))
    run("Gamma", job(family="gamma", link="log", n_agq=3, y=[1.5, 0.25, 3.0, 0.75], weights=[4.0, 2.0, 3.0, 1.0]))
    run("unsettled", job(family="gaussian", link="identity", y=[3.0, 0.0, 5.0, 0.25]))
    run("log sum", job(n_agq=3, weights=[-1e308, 1.0, 1.0, 1.0]))
    run("theta", job(theta=[1e200]))
    run("columns", two(x=[[1.0, 1.0]] * 4))
    run("offset", job(link="identity", offset=[1e9, 3e8, 1e200, 1e9]))
    run("limit 1", two(limit=1))
    run("refused etas", job(family="gaussian", link="inverse", y=[9.0, 0.1, 0.5, 3.0], limit=6))
    run("refused means", job(x=[*job()["x"][:3], [1.0, 1e4]], weights=[1.0, 1.0, 1.0, 1e-12]))
    run("refused sums", job(link="identity", y=[0.0, 3.0, 1.0, 1e164], x=[*job()["x"][:3], [1e10, 0.0]], zt=[[[3, 1.0]], [[3, 1.0]]]))


def refusals():
    """Each number of the table; a list that is too short; the limit's codes; a code of no family, link or start, which is refused in its place of the table."""
    run("none", job(), blocks=[])
    run("one for two", two(), blocks=[(2, 1)])
    run("k 9", job(), blocks=[(2, 9)])
    run("second k 9", two(), blocks=[(2, 1), (1, 9)])
    run("m 0", two(), blocks=[(2, 1), (0, 1)])
    run("largest m", job(), blocks=[(2**64 - 1, 1)])
    run("limit 1000", job(limit=1000))
    run("limit 1001", job(), limit=1001)
    run("limit 1022", job(), limit=1022)
    run("limit 1024", job(), limit=1024)
    run("theta short", two(), theta=[0.75])
    run("beta longer", job(), beta=3)
    run("terms short", two(), work_terms=6999)
    run("terms longer", two(), work_terms=7001)
    run("columns fall", job(), columns=[2, 0, 1, 3])
    run("NaN", job(), y=[1.0, NAN, 0.0, 5.0])
    run("sqrt", job(), family=0, link=6)
    run("link 7", job(), link=7)
    run("family 4", job(), family=4)
    run("largest codes", two(), family=2**64 - 1, link=2**64 - 1)
    run("family 4, NaN", job(), family=4, y=[1.0, NAN, 0.0, 5.0])
    run("link 7, k 9", job(), link=7, blocks=[(2, 9)])
    run("Poisson probit", job(), link=1)
    run("Gamma sqrt", job(), family=3, link=6)
    run("Gamma of 0", job(), family=3, link=5)
    run("above 1", job(), family=0, link=0)
    run("probit, above 1", job(), family=0, link=1)
    run("start 2", job(), start=2)
    run("largest start, NaN", job(), start=2**64 - 1, y=[1.0, NAN, 0.0, 5.0])
    run("Poisson trials", job(), start=1)
    run("trials below 0", job(family="binomial", link="logit", y=[0.25, 0.5, 0.0, 1.0], weights=[4.0, 2.0, -3.0, 1.0]), start=1)
    run("Poisson trials, below 0", job(), start=1, y=[1.0, -0.5, 0.0, 5.0])


fits()
refusals()
assert "--stdin" in sys.argv or given == {*range(5), 6, 7, 9, *range(10, 14), 27}
