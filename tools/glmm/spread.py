"""What the table and the plot compute from the printed numbers of a fitted job (docs/NUMBERS.md): Wald's intervals, the spread of the random effects, and
what part of a column of X is its own. In plain doubles: no digit of it is promised as those of `fitjob` are."""
import math
from form import FAMILIES, LINKS

WALD = 1.959964  # the normal distribution's 97.5 % point
LEAST = 2.0**-52
ROOT_TWO_PI = math.sqrt(2 * math.pi)


def wald(lists):
    """The ends of the 95 % interval of each beta."""
    pairs = list(zip(lists["beta"], lists["se"]))
    return [beta - WALD * se for beta, se in pairs], [beta + WALD * se for beta, se in pairs]


def slope(link, mu, eta):
    """The derivative of a mean by its predictor."""
    return {"logit": mu * (1 - mu), "probit": math.exp(-eta * eta / 2) / ROOT_TWO_PI, "cloglog": (1 - mu) * math.exp(min(eta, 700)), "log": mu, "identity": 1, "inverse": -mu * mu, "sqrt": 2 * max(eta, 0)}[link]


def variance(family, mu):
    return max({"binomial": mu * (1 - mu), "poisson": mu, "gaussian": 1, "gamma": max(mu, LEAST) ** 2}[family], LEAST)


def working_weights(job, lists):
    """The weights of the working responses at the printed means; phi is in them."""
    phi = max(lists["phi"][0], LEAST)
    given = job.weights or [1.0] * job.n
    slopes = [slope(LINKS[job.link], mu, eta) for mu, eta in zip(lists["mu"], lists["eta"])]
    return [max(w * s * s / (phi * variance(FAMILIES[job.family], mu)), LEAST) for w, s, mu in zip(given, slopes, lists["mu"])]


def lambda_rows(job):
    """Λ by rows, each as a list of (column, value): a block's lower triangle for each of its groups, packed column by column."""
    rows, thetas = [], iter(job.theta)
    for m, k in job.blocks:
        low = {(i, j): next(thetas) for j in range(k) for i in range(j, k)}
        for _ in range(m):
            start = len(rows)
            rows += [[(start + j, low[i, j]) for j in range(i + 1)] for i in range(k)]
    return rows


def factor(matrix):
    """The lower Cholesky factor; a pivot below 2^-52 counts as that."""
    low = [[0.0] * len(matrix) for _ in matrix]
    for j, row in enumerate(low):
        row[j] = math.sqrt(max(matrix[j][j] - sum(l * l for l in row[:j]), LEAST))
        for i in range(j + 1, len(low)):
            low[i][j] = (matrix[i][j] - sum(a * b for a, b in zip(low[i][:j], row[:j]))) / row[j]
    return low


def solved(low, right):
    """x with Lx = right."""
    x = []
    for row, r in zip(low, right):
        x.append((r - sum(a * b for a, b in zip(row, x))) / row[len(x)])
    return x


def length(values):
    return math.sqrt(sum(v * v for v in values))


def effect_spread(job, lists):
    """The standard deviation of each b given beta, theta and phi: the root of the diagonal of Λ A^-1 Λ', with A = Λ'Z'WZΛ + I. With A = LL' it is the
    length of L^-1 times a row of Λ."""
    weights, rows = working_weights(job, lists), lambda_rows(job)
    spread = [{} for _ in range(job.q)]  # Λ'Z', by rows
    for row, entries in zip(rows, job.zt):
        for c, value in row:
            for i, z in entries:
                spread[c][i] = spread[c].get(i, 0.0) + value * z
    a = [[sum(value * other[i] * weights[i] for i, value in one.items() if i in other) for other in spread] for one in spread]
    for i in range(job.q):
        a[i][i] += 1.0
    low = factor(a)
    return [length(solved(low, [dict(row).get(c, 0.0) for c in range(job.q)])) for row in rows]


def own_parts(v, p):
    """Of each column of X the part of its length, as the fit weighs it, that the other columns don't give: the root of 1/(R^-1)_jj, with the correlations R
    of beta by v."""
    scale = [math.sqrt(v[j * p + j]) if v[j * p + j] > 0 else 0.0 for j in range(p)]
    if not all(0 < s < math.inf for s in scale) or any(map(math.isnan, v)):
        return [1.0] * p
    low = factor([[v[i * p + j] / scale[i] / scale[j] for j in range(p)] for i in range(p)])
    columns = [solved(low, [float(i == j) for i in range(p)]) for j in range(p)]
    return [1 / length(column) for column in columns]
