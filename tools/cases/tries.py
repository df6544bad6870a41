#!/usr/bin/env python3
"""usage: tries.py > crates/cases_tries/stdout
       tries.py --stdin > crates/cases_tries/stdin
What `cases_tries` must print, and the cases that it is fed: document 01's paragraph on tries in Python's own doubles, the means by tools/glmm/families.py.
Stops where PWRSS would be the same with u·u added last, since the cases would then not show its place."""
import math, struct, sys
from pathlib import Path

sys.dont_write_bytecode = True
sys.path.insert(0, str(Path(__file__).resolve().parents[1] / "glmm"))
from elementary import text
from families import CLOGLOG, E, IDENTITY, INVERSE, LOG, LOGIT, SQRT, link_inv

U, W = [1e8, 0.7], [1.8, 0.1]
Z = [1.7, 0.3]
INF = math.inf


def pwrss(z, c):
    s = 0.0
    for u in U:
        s = s + u * u
    for i in range(2):
        d = z[i] - c[i]
        s = s + W[i] * (d * d)
    return s


def last(z, c):
    s = 0.0
    for i in range(2):
        d = z[i] - c[i]
        s = s + W[i] * (d * d)
    return s + (U[0] * U[0] + U[1] * U[1])


def tried(link, step, z, rows):
    """The number of the test that refuses the candidate, or 0 and its PWRSS; rows 2 and 3, 6 and 7 are written as in the rule."""
    rows[2:4] = [rows[i] + (rows[4 + i] - rows[i]) * step for i in range(2)]
    if not all(math.isfinite(e) and (link != INVERSE or e > E) for e in rows[2:4]):
        return 1, None
    rows[6:8] = [link_inv(link, e) for e in rows[2:4]]
    if not all(math.isfinite(m) for m in rows[6:8]):
        return 2, None
    p = pwrss(z, rows[2:4])
    return (0, p) if math.isfinite(p) else (3, None)


def rows_of(a, b, c, d):
    return [a, b, 7.0, 7.0, c, d, 8.0, 8.0, 9.0]


def fed(word, link, step, z, rows):
    """A case in words of eight bytes, in the order in which crates/cases_tries/src/main.rt takes them; the name stands behind its length, and a step of zero for all tries."""
    name = struct.pack(f">Q{len(word)}s", len(word), word.encode())
    sys.stdout.buffer.write(name + struct.pack(">16dQ", *U, *W, *z, *rows, step, link))


def show(word, counts, p, rows):
    if "--stdin" not in sys.argv:
        print(word, *counts, *([] if p is None else [text(p)]), *[text(x) for x in rows])


def search(word, link, z, rows):
    if "--stdin" in sys.argv:
        fed(word, link, 0.0, z, rows)
    step, fates = 1.0, []
    for _ in range(100 if link == INVERSE else 25):
        n, p = tried(link, step, z, rows)
        fates.append(n)
        if n == 0:
            break
        step = step * 0.5
    show(word, [0, 0, len(fates), 0, *map(fates.count, (1, 2, 3, 0))], p, rows)
    return p, rows[2:4]


def single(word, link, step, z, rows):
    if "--stdin" in sys.argv:
        fed(word, link, step, z, rows)
    n, p = tried(link, step, z, rows)
    show(word, [n], p, rows)


# A step that is accepted at once, and steps that must be halved: for an eta below E with the inverse link, for a mean, for PWRSS.
p, c = search("at_once", SQRT, Z, rows_of(1.1, 2.3, 1.5, 2.7))
q, d = search("inverse", INVERSE, Z, rows_of(1.1, 2.3, -9.0, 2.7))
search("log", LOG, Z, rows_of(1.1, 2.3, 1.5, 3e3))
search("identity", IDENTITY, Z, rows_of(1.1, 2.3, 3e156, 2.7))
# Steps that are refused for one test and then for another: eta, then PWRSS; a mean, then PWRSS.
search("eta_pwrss", INVERSE, Z, rows_of(1.1, 2.3, -0.3, 1e156))
search("mean_pwrss", SQRT, Z, rows_of(1.1, 2.3, 1e155, 2.7))
# No step helps: 25 tries, with the inverse link 100.
search("no_eta", LOGIT, Z, rows_of(1.1, 2.3, 1.5, INF))
search("no_eta", INVERSE, Z, rows_of(1.1, 2.3, 1.5, -INF))
search("no_mean", LOG, Z, rows_of(1.1, 800.0, 1.5, 801.0))
search("no_pwrss", INVERSE, [1.7, 1e200], rows_of(1.1, 2.3, 1.5, 2.7))
# Each answer of a try.
single("step", CLOGLOG, 0.25, Z, rows_of(1.1, 2.3, 1.5, 2.7))
single("eta", INVERSE, 1.0, Z, rows_of(1.1, 2.3, 1.5, -2.7))
single("mean", LOG, 1.0, Z, rows_of(1.1, 2.3, 1.5, 710.0))
single("pwrss", LOG, 1.0, [1.7, 1e200], rows_of(1.1, 2.3, 1.5, 2.7))
# A try that fails two tests is refused for the first, though the other fails at an earlier observation.
single("eta_first", LOG, 1.0, Z, rows_of(1.1, 2.3, 710.0, INF))
single("mean_first", LOG, 1.0, [1e200, 0.3], rows_of(1.1, 2.3, 1.5, 710.0))
# An eta of E and the next double with the inverse link.
single("at_e", INVERSE, 1.0, Z, rows_of(0.0, 2.3, E, 2.7))
single("past_e", INVERSE, 1.0, Z, rows_of(0.0, 2.3, math.nextafter(E, 1.0), 2.7))
assert p != last(Z, c) or q != last(Z, d)
