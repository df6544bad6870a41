#!/usr/bin/env python3
"""usage: linear.py > crates/cases_linear/stdout
What `cases_linear` must print, by Python's own doubles: every sum ascends from +0.0, one rounding for each product and each addition.
Stops where another order or association would print the same, since the case would then show nothing."""
import struct


def text(x):
    return "%016X" % struct.unpack(">Q", struct.pack(">d", x))[0] if x == x else "7FF8000000000000"


def show(word, xs, rest=1):
    print(word, *[text(x) for x in list(xs) + [9.0] * rest])


def total(terms, start=0.0):
    s = start
    for t in terms:
        s = s + t
    return s


def tells(xs, others):
    assert [text(x) for x in xs] != [text(x) for x in others]


x, beta = [[1.0, 1e16], [0.1, -1e16], [0.7, 3.0]], [0.3, 1.0]
show("x_beta", [total(r[j] * beta[j] for j in range(2)) for r in x])
show("products", [a * b for a, b in zip([1.8, 0.1, -0.0], [0.7, 3.0, 1e16])])

w = [1.8, 0.1, 0.7]


def left(xa, wi, xb):
    return (xa * wi) * xb


def crosses(x, p, term=left, order=range(3), start=0.0):
    return [total((term(x[i * p + a], w[i], x[i * p + b]) for i in order), start) for a in range(p) for b in range(a + 1)]


def put_cross(x, p):
    entries = crosses(x, p)
    for a in range(p):
        show("cross", entries[a * (a + 1) // 2:][:a + 1], 0)


def middle(xa, wi, xb):
    return (xa * xb) * wi


def right(xa, wi, xb):
    return xa * (wi * xb)


back = range(2, -1, -1)
x = [1e8, 4.1, 1.3]
tells(crosses(x, 1), crosses(x, 1, order=back))
put_cross(x, 1)
x = [0.9, 2.4, -2.3, -0.2, -1.5, 0.3]
for term in (middle, right):
    tells(crosses(x, 2), crosses(x, 2, term))
put_cross(x, 2)
x = [1e200, -0.0, 1e200, 7.0, -0.0, -1.0, 1e200, -0.0, -1e200]
tells(crosses(x, 3), crosses(x, 3, start=-0.0))
put_cross(x, 3)
x, v = [], 0.3
for i in range(39):
    v = 3.7 * v * (1.0 - v)
    x.append(v - 0.5)
for p in (8, 13):
    for other in (crosses(x, p, order=back), crosses(x, p, middle), crosses(x, p, right)):
        tells(crosses(x, p), other)
    put_cross(x, p)

wy, solved, beta = [1.0, 0.7, 1e16], [[0.1, 1e16, 3.0], [0.3, -1e16, 0.9]], [0.7, 1.1]
u = [wy[i] - total(solved[j][i] * beta[j] for j in range(2)) for i in range(3)]
tells(u, [(wy[i] - solved[0][i] * beta[0]) - solved[1][i] * beta[1] for i in range(3)])
show("effects", u)

rows = [{1: 0.1, 3: -0.7, 4: 0.3}, {}, {0: 1e16, 2: 1.1, 3: -1e16, 4: 0.9}, {1: 0.7, 3: 0.9, 4: 1.9}, {0: 2.3, 2: 0.6}]
v, w, b = [1.0, 0.7, 3.0, 1.0, 0.3], [1.8, 0.1, 0.7, 1.3, 0.3], [0.3, 5.0, 1.1, 1.7, 0.7]
side = [total(r[i] * v[i] for i in sorted(r)) for r in rows]
tells(side, [total(r[i] * v[i] for i in sorted(r, reverse=True)) for r in rows])
show("zt_times", side)


def both(r, s):
    return sorted(set(r) & set(s))


square = [total((r[i] * s[i]) * w[i] for i in both(r, s)) for r in rows for s in rows]
tells(square, [total(r[i] * (s[i] * w[i]) for i in both(r, s)) for r in rows for s in rows])
tells(square, [total((r[i] * s[i]) * w[i] for i in reversed(both(r, s))) for r in rows for s in rows])
show("ztwz", square)
effect = [total(r[i] * b[a] for a, r in enumerate(rows) if i in r) for i in range(5)]
tells(effect, [total(r[i] * b[a] for a, r in reversed(list(enumerate(rows))) if i in r) for i in range(5)])
show("z_times", effect)
