#!/usr/bin/env python3
"""usage: base.py > crates/cases_base/stdout
What `cases_base` must print, worked out apart from the Rattle code: the tests and choices from IEEE 754 and document 01's words
('max with one NaN gives the other number, clamp of NaN is NaN', of two zeros the second), the sums with Python's own doubles."""
import math, sys

sys.dont_write_bytecode = True
from elementary import NAN, SPECIAL, double, text


def larger(a, b):
    if math.isnan(b):
        return a
    if math.isnan(a):
        return b
    return a if b < a else b


def clamped(lo, hi, x):
    return x if math.isnan(x) else lo if x < lo else hi if hi < x else x


def dot(a, b):
    s = 0.0
    for x, y in zip(a, b):
        s = s + x * y
    return s


def good(starts, columns, rows, n):
    if starts[0] != 0 or starts[rows] != len(columns) or any(starts[a] > starts[a + 1] for a in range(rows)):
        return 0
    parts = [columns[starts[a]:starts[a + 1]] for a in range(rows)]
    return int(all(c < n for p in parts for c in p) and all(sorted(set(p)) == list(p) for p in parts))


e = 2.0 ** -52
for p in SPECIAL:
    x = double(p)
    nan = math.isnan(x)
    sign = 0 if nan else p >> 63
    print("one", text(x), int(nan), int(not nan and not math.isinf(x)), int(math.isinf(x)), sign, text(double(NAN if nan else p & (1 << 63) - 1)),
          text(clamped(e, 1.0 - e, x)), text(clamped(-1.0, math.inf, x)))
    for q in SPECIAL:
        print("max", text(x), text(double(q)), text(larger(x, double(q))))
a, b = [1.0, 1e16, -1e16, 0.1, 0.7, -0.0], [3.0, 1.0, 1.0, 0.3, -0.9, 5.0]
print("dot", *[text(dot(u, v)) for u, v in [([], []), (a[:3], b), (a[:5], b), (a, b), (a[5:], b), (a[1:5], b)]])
print("copy", *map(text, [1.5, -0.0, math.nan, 6.0]))
print("wipe", *map(text, [0.0, 0.0, math.nan, 6.0]))
print("finite 1 0 1")
s, c = [0, 2, 2, 5], [1, 3, 0, 2, 3]
print("rows", good(s, c, 3, 4), good(s, c, 3, 3), good(s, c, 2, 4), good([0, 5], [0, 2, 4, 6, 8], 1, 9),
      good([1, 2, 2, 5], c, 3, 4), good([0, 3, 2, 5], c, 3, 4), good([0, 2, 2, 4], c, 3, 4), good([0], c, 0, 4),
      good(s, [3, 1, 0, 2, 3], 3, 4), good(s, [1, 3, 0, 2, 2], 3, 4))
