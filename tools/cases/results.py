#!/usr/bin/env python3
"""usage: results.py > crates/cases_results/stdout
       results.py --stdin > crates/cases_results/stdin
What `cases_results` must print: v, standard errors, z values, residuals and b = Λu in Python's own doubles; and the lists and words that it is fed. Stops where v summed over
the other index would print the same, since the case would then show nothing."""
import struct, sys
from pathlib import Path

sys.dont_write_bytecode = True
sys.path.insert(0, str(Path(__file__).resolve().parents[1] / "glmm"))
from elementary import sqrt, text
from families import INF, over


FED = "--stdin" in sys.argv


def show(word, xs, rest=()):
    """A line; fed is its word, behind the length."""
    if FED:
        sys.stdout.buffer.write(struct.pack(f">Q{len(word)}s", len(word), word.encode()))
    else:
        print(word, *map(text, [*xs, *rest]))


def feed(*lists):
    """Lists of a call, before the words of what it prints."""
    if FED:
        for xs in lists:
            sys.stdout.buffer.write(struct.pack(f">{len(xs)}d", *xs))


def total(terms):
    s = 0.0
    for t in terms:
        s = s + t
    return s


def v_of(columns, p):
    """The columns of the inverse stand one behind the other: column a from a·p on."""
    v = [total(columns[a * p + i] * columns[b * p + i] for i in range(p)) for a in range(p) for b in range(p)]
    assert v != [total(columns[i * p + a] * columns[i * p + b] for i in range(p)) for a in range(p) for b in range(p)]
    return v


def z_of(beta, se):
    return [over(b, s) if s > 0.0 else 0.0 for b, s in zip(beta, se)]


def errors(v, beta):
    se = [sqrt(v[4 * a]) for a in range(3)]
    show("se", se, [9.0])
    show("z", z_of(beta, se), [9.0])


def fixed(columns, beta):
    v = v_of(columns, 3)
    feed(columns)
    show("v", v, [9.0])
    feed(beta)
    errors(v, beta)


# roots with a zero and an infinity among them; ordinary ones; roots that are of no sum of squares
fixed([0.3, 0.1, -1.7, 0.0, 1e-200, 0.0, 0.0, 0.0, 1e200], [1.0, 2.0, -3.0])
fixed([0.1, 0.7, 1e8, 0.2, 0.3, -1e8, 0.9, 1.1, 0.5], [0.5, -0.0, 1e300])
V, BETA = [-0.0, 9.0, 9.0, 9.0, -4.0, 9.0, 9.0, 9.0, INF], [2.0, 3.0, 5.0]
feed(V, BETA)
errors(V, BETA)
Y, MU = [1.0, 0.3, -0.0, 1e300, INF], [0.7, 0.1, 0.0, -1e300, INF]
feed(Y, MU)
show("residual", [y - m for y, m in zip(Y, MU)], [9.0])

# two groups of one effect, then a group of two
THETA, U = [0.7, 1.1, -0.3, 0.9], [0.4, -0.7, 1.1, 0.2]
LAMBDA = [[(0, 0.7)], [(1, 0.7)], [(2, 1.1)], [(2, -0.3), (3, 0.9)]]
Y, BETA, MU, ETA, COLUMNS = [1.0, 0.0, 3.0, 2.0], [0.25, -1.3], [1.4, 0.2, 2.7, 1.9], [0.34, -1.6, 0.99, 0.64], [0.7, -0.3, 0.0, 1.9]
feed(THETA, Y, COLUMNS, BETA, U, MU, ETA)
v = v_of(COLUMNS, 2)
se = [sqrt(v[3 * a]) for a in range(2)]
show("beta", BETA)
show("se", se)
show("z", z_of(BETA, se))
show("u", U)
show("b", [total(x * U[j] for j, x in row) for row in LAMBDA])
show("mu", MU)
show("eta", ETA)
show("residual", [y - m for y, m in zip(Y, MU)])
show("v", v)
for word, length in [("rows", 16), ("matrices", 3 + 4 + 2 + 12 * 2), ("terms", 2)]:
    show(word, [0.0] * length, [9.0])
