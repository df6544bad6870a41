"""Factors, substitution and sums in document 01's order: ascending index from +0.0, one rounding for each product and each addition."""
import math
from families import over, sqrt


class Ended(Exception):
    """An end other than fitted, with its number."""


def total(terms):
    s = 0.0
    for t in terms:
        s += t
    return s


def dot(a, b):
    return total(x * y for x, y in zip(a, b))


def ldl(matrix):
    """L with ones on its diagonal, and d; from the lower triangle. Ended(10) where a pivot is zero or not finite."""
    size = len(matrix)
    low, d = [[0.0] * size for _ in range(size)], []
    for j in range(size):
        d.append(matrix[j][j] - total(low[j][k] * low[j][k] * d[k] for k in range(j)))
        if d[j] == 0.0 or not math.isfinite(d[j]):
            raise Ended(10)
        low[j][j] = 1.0
        for i in range(j + 1, size):
            low[i][j] = (matrix[i][j] - total(low[i][k] * low[j][k] * d[k] for k in range(j))) / d[j]
    return low, d


def cholesky(matrix):
    """The lower factor, from the lower triangle. Ended(11) where a pivot is not above zero or not finite."""
    size = len(matrix)
    low = [[0.0] * size for _ in range(size)]
    for j in range(size):
        pivot = matrix[j][j] - total(low[j][k] * low[j][k] for k in range(j))
        if not pivot > 0.0 or not math.isfinite(pivot):
            raise Ended(11)
        low[j][j] = sqrt(pivot)
        for i in range(j + 1, size):
            low[i][j] = (matrix[i][j] - total(low[i][k] * low[j][k] for k in range(j))) / low[j][j]
    return low


def forward(low, right):
    x = []
    for i, r in enumerate(right):
        rest = r - total(low[i][j] * x[j] for j in range(i))
        x.append(rest if low[i][i] == 1.0 else over(rest, low[i][i]))
    return x


def backward(low, right):
    """With the transpose of `low`."""
    size = len(right)
    x = [0.0] * size
    for i in reversed(range(size)):
        rest = right[i] - total(low[j][i] * x[j] for j in range(i + 1, size))
        x[i] = rest if low[i][i] == 1.0 else over(rest, low[i][i])
    return x


def ldl_solve(factor, right):
    low, d = factor
    return backward(low, [over(x, pivot) for x, pivot in zip(forward(low, right), d)])


def unit(size, at):
    return [1.0 if i == at else 0.0 for i in range(size)]


def by_columns(columns):
    return [list(row) for row in zip(*columns)]


def ldl_inverse(matrix):
    factor = ldl(matrix)
    return by_columns([ldl_solve(factor, unit(len(matrix), c)) for c in range(len(matrix))])


def lower_inverse(low):
    return by_columns([forward(low, unit(len(low), c)) for c in range(len(low))])
