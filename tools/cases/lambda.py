#!/usr/bin/env python3
"""usage: lambda.py > crates/cases_lambda/stdout
What `cases_lambda` must print, by Python's own doubles: Λ as a matrix of entries and None where it has no place, every sum ascending from +0.0 over the entries.
Stops where packing by rows or another association would print the same, since the case would then show nothing."""
import struct


def text(x):
    return "%016X" % struct.unpack(">Q", struct.pack(">d", x))[0]


def show(word, xs):
    print(word, *[text(x) for x in list(xs) + [9.0]])


def total(terms):
    s = 0.0
    for t in terms:
        s = s + t
    return s


def scatter(x, n):
    out = []
    for _ in range(n):
        out.append(x)
        x = 3.9 * x * (1.0 - x)
    return out


BLOCKS, THETA, Q = [(2, 1), (1, 3), (2, 2)], [0.7, 1.1, -0.3, 0.0, 0.9, 1e-9, 0.4, 1.3, -2.1, 0.6], 9


def lower(k, by_rows):
    """The places of a lower triangle in the order in which theta has them."""
    return [(r, c) for r in range(k) for c in range(r + 1)] if by_rows else [(r, c) for c in range(k) for r in range(c, k)]


def whole(by_rows=False):
    L, row, at = [[None] * Q for _ in range(Q)], 0, 0
    for m, k in BLOCKS:
        for g in range(m):
            for t, (r, c) in enumerate(lower(k, by_rows)):
                L[row + r][row + c] = THETA[at + t]
            row += k
        at += k * (k + 1) // 2
    return L


def times(L, u):
    return [total(L[i][j] * u[j] for j in range(Q) if L[i][j] is not None) for i in range(Q)]


def transposed(L, v):
    return [total(L[i][j] * v[i] for i in range(Q) if L[i][j] is not None) for j in range(Q)]


def right(L, S):
    return [[total(S[a][b] * L[b][c] for b in range(Q) if L[b][c] is not None) for c in range(Q)] for a in range(Q)]


def system(L, K):
    A = [[total(L[b][a] * K[b][c] for b in range(Q) if L[b][a] is not None) for c in range(Q)] for a in range(Q)]
    return [[A[a][c] + 1.0 if a == c else A[a][c] for c in range(Q)] for a in range(Q)]


L, at, print_columns = whole(), 0, []
for m, k in BLOCKS:
    for g in range(m):
        first = at
        for c in range(k):
            print_columns += [first, k - c]
            first += k - c
    at += k * (k + 1) // 2
print("columns", *print_columns)
u = scatter(0.61, 9)
show("times", times(L, u))
show("transposed", transposed(L, u))
assert times(L, u) != times(whole(by_rows=True), u)
numbers = scatter(0.29, 81)
S = [numbers[9 * i:9 * i + 9] for i in range(9)]
K = right(L, S)
show("right", [K[a][c] for c in range(Q) for a in range(Q)])
A = system(L, K)
show("system", [v for row in A for v in row])
other = [[total(total(L[b][a] * S[b][d] for b in range(Q) if L[b][a] is not None) * L[d][c] for d in range(Q) if L[d][c] is not None) for c in range(Q)] for a in range(Q)]
assert any(A[a][c] != other[a][c] for a in range(Q) for c in range(Q) if a != c)
