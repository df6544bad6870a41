#!/usr/bin/env python3
"""usage: dispersion.py > crates/cases_dispersion/stdout
What `cases_dispersion` must print: the loop of `pirls` in Python's own doubles, over inner fits whose deviance sums are given. Stops unless a loop settles at once,
one after some rounds, one by a sum that cannot be used, and one not at all."""
import math, sys
from pathlib import Path

sys.dont_write_bytecode = True
sys.path.insert(0, str(Path(__file__).resolve().parents[1] / "glmm"))
from elementary import exp, ln, text
from families import E, INF, NAN, larger, over


def count(weights, n):
    s = 0.0
    for i in range(n):
        s = s + (weights[i] if i < len(weights) else 1.0)
    print("count", text(larger(s, 1.0)))


def after(effective, phi, sum_dev):
    """The next phi, or None where the loop is done."""
    if not math.isfinite(sum_dev) or sum_dev <= 0.0:
        return None
    new = larger(over(sum_dev, effective), E)
    if over(abs(new - phi), larger(phi, E)) < 1e-8:
        return None
    phi = exp(0.9 * ln(phi) + 0.1 * ln(new))
    return None if not math.isfinite(phi) or phi <= 0.0 else phi


def one(effective, phi, sum_dev):
    r = after(effective, phi, sum_dev)
    print("round settled" if r is None else "round " + text(r))


def rounds(effective, first, second):
    phi, sums = 1.0, [first, second]
    for k in range(240):
        r = after(effective, phi, sums[k % 2])
        if r is None:
            print("rounds 1", k, text(phi))
            return k
        phi = r
    print("rounds 0 240", text(phi))
    return None


count([], 0)
count([], 5)
count([0.1, 0.2, 0.3], 3)
count([1e16, 1.0, -1e16], 3)
count([0.7, 0.6], 4)
count([-2.0, 0.5], 2)
count([NAN, 3.0], 2)
count([INF], 1)
for phi, s in [(1.0, NAN), (1.0, INF), (1.0, -INF), (1.0, 0.0), (1.0, -0.0), (1.0, -1.0), (NAN, 1.0), (INF, 1.0), (0.0, 1.0)]:
    one(3.0, phi, s)
for c, phi, s in [(3.0, 1.0, 3.0), (3.0, 1.0, 3.00000003), (3.0, 1.0, 3.00000002), (3.0, 1.0, 2.0), (3.0, 0.37, 12.5), (1.0, 1.0, 1e-300), (1.0, 1e-300, 1e-300), (1e300, 1.0, 1e-300),
                  (0.0, 2.0, 5.0), (7.25, 1e200, 1e-9)]:
    one(c, phi, s)
assert rounds(3.0, 3.0, 3.0) == 0
assert rounds(3.0, 6.0, 6.0) > 100
rounds(11.0, 0.025, 0.025)
rounds(3.0, 0.1, 1e-30)
assert rounds(3.0, 4.0, 0.0) == 1
assert rounds(1.0, 2.0, 3.0) is None
rounds(1.0, 1e300, 1e-300)
