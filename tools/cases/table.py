#!/usr/bin/env python3
"""usage: table.py > crates/cases_table/stdout
       table.py --stdin > crates/cases_table/stdin
What `cases_table` must print, and the calls that it is fed: document 01's table of refusals in Python with document 02's P1, P6, P8 and P10, asked the same calls. Stops unless every number of
the table is given."""
import math, struct, sys

NAN, INF = math.nan, math.inf
BIG = 1 << 63
LEAST, MOST, BELOW_ONE, ABOVE_ONE = 5e-324, 1.7976931348623157e308, 1.0 - 2.0**-53, 1.0 + 2.0**-52
LINKS = ["logit", "probit", "cloglog", "log", "identity", "inverse", "sqrt"]
STARTS = ["usual", "trials"]
FAMILIES = ["binomial", "poisson", "gaussian", "gamma"]
VALID = {"binomial": {"logit", "probit", "cloglog"}, "poisson": {"log", "identity", "sqrt"}, "gaussian": {"identity", "log", "inverse"}, "gamma": {"inverse", "identity", "log"}}
RESULTS = ["beta", "se", "z", "u", "b", "mu", "eta", "residual", "v"]
seen = set()


def call(**changes):
    c = dict(responses=1, family="poisson", link="log", limit=None, n=3, p=2, rows=2, entries=3, blocks=[(2, 1)], theta=[1.0], y=[1.0, 2.0, 3.0], weights=[], offset=[], start="usual",
             x=[1.0, 0.5, 1.0, 0.25, 1.0, 0.125], starts=[0, 2, 3], columns=[0, 2, 1], values=[1.0] * 3, beta=2, se=2, z=2, u=2, b=2, mu=3, eta=3, residual=3, v=4,
             work_rows=48, work_matrices=84, work_terms=7000)
    assert set(changes) <= set(c)
    return c | changes


def responses(c):
    """How many responses a call is for: one where it does not say."""
    return c.get("responses", 1)


def sizes(c):
    q = sum(m * k for m, k in c["blocks"])
    return (1 <= c["n"] <= 512 and 1 <= c["p"] <= 16 and 1 <= len(c["blocks"]) <= 8 and all(m >= 1 and 1 <= k <= 8 for m, k in c["blocks"]) and 1 <= q <= 32
            and q == c["rows"] and c["entries"] <= 8192 and (c["limit"] is None or c["limit"] <= 1000))


def lengths(c):
    r, n, p, q = responses(c), c["n"], c["p"], c["rows"]
    wanted = dict(zip(RESULTS, [r * k for k in [p, p, p, q, q, n, n, n, p * p]]))
    inputs = dict(theta=sum(k * (k + 1) // 2 for _, k in c["blocks"]), y=r * n, x=n * p, starts=q + 1, columns=c["entries"], values=c["entries"])
    return (all(c[k] == w for k, w in wanted.items()) and all(len(c[k]) == w for k, w in inputs.items()) and len(c["weights"]) in (0, n) and len(c["offset"]) in (0, n))


def work(c):
    n, p, q = c["n"], c["p"], c["rows"]
    return c["work_rows"] >= 16 * n and c["work_matrices"] >= 3 * q * q + 4 * p * p + 2 * q * p + 12 * (q + p) and c["work_terms"] >= 7000


def sparse(c):
    starts, columns = c["starts"], c["columns"]
    if starts[0] != 0 or starts[-1] != c["entries"] or any(a > b for a, b in zip(starts, starts[1:])):
        return False
    rows = [columns[a:b] for a, b in zip(starts, starts[1:])]
    return all(x < c["n"] for row in rows for x in row) and all(a < b for row in rows for a, b in zip(row, row[1:]))


def numbers(c):
    return all(math.isfinite(x) for k in ["theta", "y", "weights", "offset", "x", "values"] for x in c[k])


def ranges(c):
    test = {"binomial": lambda y: 0.0 <= y <= 1.0, "poisson": lambda y: 0.0 <= y, "gaussian": lambda y: True, "gamma": lambda y: 0.0 < y}[c["family"]]
    return all(map(test, c["y"]))


def started(c):
    return c["start"] == "usual" or c["family"] == "binomial" and not any(w < 0 for w in c["weights"])


TABLE = [(1, sizes), (8, lambda c: 1 <= responses(c) <= 64), (2, lengths), (7, work), (6, sparse), (3, numbers), (4, lambda c: c["link"] in VALID[c["family"]]), (9, ranges), (27, started)]


def laid(size, lists):
    """Each list at its place, zeros between."""
    whole = [0] * size
    for at, xs in lists.items():
        assert not any(whole[at:at + len(xs)])
        whole[at:at + len(xs)] = xs
    assert len(whole) == size
    return whole


def fed(word, c):
    """A call in words of eight bytes, in the order in which crates/cases_table/src/main.rt takes them; a name stands behind its length, the lists at fixed places."""
    lists = [c[k] for k in ["theta", "y", "weights", "offset", "x", "starts", "columns", "values"]]
    data = struct.pack(f">Q{len(word)}s", len(word), word.encode())
    data += struct.pack(">8Q", *laid(8, dict(zip([0, 4], lists[5:7])))) + struct.pack(">25d", *laid(25, dict(zip([0, 2, 6, 10, 14, 21], [*lists[:5], lists[7]]))))
    settings = [FAMILIES.index(c["family"]), LINKS.index(c["link"]), 2 * BIG - 1 if c["limit"] is None else c["limit"], c["n"], c["p"], c["rows"], c["entries"], STARTS.index(c["start"])]
    lent = [c[k] for k in [*RESULTS, "work_rows", "work_matrices", "work_terms"]]
    return data + struct.pack(">31Q", c["responses"], *settings, *c["blocks"][0], *map(len, lists), *lent)


def ask(word, **changes):
    c = call(**changes)
    if "--stdin" in sys.argv:
        sys.stdout.buffer.write(fed(word, c))
        return
    for number, good in TABLE:
        if not good(c):
            seen.add(number)
            print(word, number)
            return
    print(word, 0, FAMILIES.index(c["family"]), LINKS.index(c["link"]))


def main():
    for n, p, rows, entries in [(3, 2, 2, 3), (0, 2, 2, 3), (513, 2, 2, 3), (BIG, 2, 2, 3), (4, 2, 2, 3), (3, 0, 2, 3), (3, 17, 2, 3), (3, 3, 2, 3), (3, 2, 1, 3), (3, 2, 3, 3), (3, 2, 2, 8193),
                                (3, 2, 2, 8192)]:
        ask("sizes", n=n, p=p, rows=rows, entries=entries)
    for limit in [0, 1000, 1001]:
        ask("limit", limit=limit)
    for block in [(0, 1), (2, 0), (1, 2), (2, BIG), (BIG, 2)]:
        ask("block", blocks=[block])
    for name, length in zip(RESULTS, [1, 3, 0, 3, 1, 2, 4, 2, 3]):
        ask("results", **{name: length})
    ask("results")
    ask("work", work_rows=47)
    ask("work", work_matrices=83)
    ask("work", work_terms=6999)
    ask("work", work_rows=49, work_matrices=85, work_terms=7001)
    for theta, y, weights, offset in [(0, 3, 0, 0), (2, 3, 0, 0), (1, 2, 0, 0), (1, 4, 0, 0), (1, 3, 1, 0), (1, 3, 3, 0), (1, 3, 0, 2), (1, 3, 3, 3), (1, 3, 0, 4)]:
        ask("lists", theta=[1.0] * theta, y=[1.0] * y, weights=[1.0] * weights, offset=[1.0] * offset)
    for x, starts, columns, values in [(5, 3, 3, 3), (7, 3, 3, 3), (6, 2, 3, 3), (6, 4, 3, 3), (6, 3, 2, 3), (6, 3, 3, 4), (6, 3, 3, 3)]:
        ask("design", x=[1.0] * x, starts=[0, 2, 3, 3][:starts], columns=[0, 2, 1, 2][:columns], values=[1.0] * values)
    for starts, columns in [([1, 2, 3], [0, 2, 1]), ([0, 2, 2], [0, 2, 1]), ([0, 4, 3], [0, 2, 1]), ([0, 0, 3], [0, 1, 2]), ([0, 2, 3], [0, 3, 1]), ([0, 2, 3], [2, 0, 1]),
                            ([0, 2, 3], [2, 2, 1]), ([0, 2, 3], [1, 2, 0]), ([0, 2, 3], [0, 2 * BIG - 1, 1])]:
        ask("starts and columns", starts=starts, columns=columns)
    for theta, y, weight, offset, x, value in [(1.0,) * 6, (NAN, 1, 1, 1, 1, 1), (1, INF, 1, 1, 1, 1), (1, 1, -INF, 1, 1, 1), (1, 1, 1, NAN, 1, 1), (1, 1, 1, 1, NAN, 1), (1, 1, 1, 1, 1, INF)]:
        ask("numbers", theta=[theta], y=[1.0, 2.0, y], weights=[1.0, weight, 1.0], offset=[offset, 0.0, 0.0], x=[1.0] * 5 + [x], values=[1.0, value, 1.0])
    small = dict(n=1, p=1, rows=1, entries=1, blocks=[(1, 1)], x=[1.0], starts=[0, 1], columns=[0], values=[1.0], work_rows=16, work_matrices=33)
    for r in [0, 1, 2, 4, 63, 64, 65, BIG, 2 * BIG - 1]:
        ask("responses", responses=r)
        ask("responses", responses=r, n=513)
        ask("responses", **small, responses=r, y=[1.0] * min(r, 4), **dict.fromkeys(RESULTS, r))
    for y in [[1.0, 2.0, 3.0], [1.0, 2.0, NAN, 3.0], [INF, 2.0, 1.0, 3.0], [1.0, 2.0, 3.0, -INF], [1.0, 2.0, 3.0, -1.0], [1.0, 2.0, -1.0, NAN]]:
        ask("responses", **small, responses=4, y=y, **dict.fromkeys(RESULTS, 4))
    for name in RESULTS:
        ask("responses", **small, responses=4, y=[1.0] * 4, **dict.fromkeys(RESULTS, 4) | {name: 1})
    for family in FAMILIES:
        for link in LINKS:
            ask("pair", family=family, link=link, y=[0.25, 0.5, 1.0])
    for family, link in [("binomial", "cloglog"), ("poisson", "sqrt"), ("gaussian", "identity"), ("gamma", "inverse")]:
        for y in [-1.0, -LEAST, -0.0, 0.0, LEAST, 0.5, BELOW_ONE, 1.0, ABOVE_ONE, 2.0, MOST, -MOST]:
            ask("range", family=family, link=link, y=[0.25, 0.5, y])
    for at in range(3):
        for weights in [], [float(i != at) for i in range(3)]:
            ask("range", family="binomial", link="logit", y=[1.5 if i == at else 0.5 for i in range(3)], weights=weights)
    for family, link, ys, weights in [("binomial", "logit", 0.5, []), ("binomial", "logit", 0.5, [2.0, 3.0, 4.0]), ("binomial", "cloglog", 0.5, [0.0, -0.0, 1.0]), ("binomial", "logit", 0.5, [1.0, 1.0, -0.125]),
                                      ("binomial", "logit", 1.5, [1.0, 1.0, -0.125]), ("binomial", "probit", 0.5, [-1.0, 1.0, 1.0]), ("poisson", "log", 1.0, []), ("gaussian", "identity", 1.0, [1.0] * 3),
                                      ("gamma", "log", 1.0, []), ("gamma", "log", 0.0, []), ("poisson", "logit", 1.0, [])]:
        ask("start", family=family, link=link, y=[ys] * 3, weights=weights, start="trials")
        ask("usual start", family=family, link=link, y=[ys] * 3, weights=weights)
    for n, beta, terms, column, y in [(513, 1, 6999, 3, NAN), (3, 1, 6999, 3, NAN), (3, 2, 6999, 3, NAN), (3, 2, 7000, 3, NAN), (3, 2, 7000, 2, NAN), (3, 2, 7000, 2, 2.0)]:
        ask("faults", family="gamma", link="probit", n=n, beta=beta, work_terms=terms, columns=[0, column, 1], y=[1.0, y, 3.0])
    for fault in [dict(n=513), dict(beta=1), dict(work_terms=6999), dict(columns=[0, 3, 1]), dict(x=[NAN] * 6), dict(link="sqrt"), dict(link="probit"), dict(link="logit")]:
        ask("faults", **{"family": "binomial", "link": "logit", "y": [0.5, 1.5, -1.0]} | fault)
    assert "--stdin" in sys.argv or seen == {1, 2, 3, 4, 6, 7, 8, 9, 27}


if __name__ == "__main__":
    main()
