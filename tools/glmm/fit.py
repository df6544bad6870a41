"""The whole call as document 01 has it: the inner fit, the Laplace deviance, quadrature, the dispersion loop, the counts. Written from document 01 and
document 000 alone, in plain loops over lists, as a second reading beside the Rust oracle and the Rattle code."""
import math
from families import E, INVERSE, aic, deviance, exp, larger, link_fun, link_inv, ln, mu_eta, over, sqrt, start_mean, trials_mean, uses_dispersion, variance
from linear import Ended, cholesky, dot, forward, backward, ldl, ldl_inverse, ldl_solve, lower_inverse, total
from rules import DIAGONAL, SPREAD, SUM, Declined, joint_order, log_sum_exp, product_order, rule

LARGEST = (2.0 - E) * 2.0**1023


class Account:
    """The work of a call; the last four are what became of the tries."""

    def __init__(self):
        self.fits = self.solves = self.tries = self.points = 0
        self.eta = self.mean = self.pwrss = self.ok = 0


class Problem:
    """What a call is given, with Λ and the observations of each row of Z'."""

    def __init__(self, job):
        self.job = job
        self.weights = job.weights or [1.0] * job.n
        self.rows = lambda_rows(job)
        self.columns = [[(a, v) for a, row in enumerate(self.rows) for b, v in row if b == c] for c in range(job.q)]
        self.stored = [dict(row) for row in job.zt]

    def shifted(self, eta):
        return eta if self.job.offset is None else [e + o for e, o in zip(eta, self.job.offset)]

    def deviances(self, mu):
        return [deviance(self.job.family, y, m, w) for y, m, w in zip(self.job.y, mu, self.weights)]

    def predictor(self, beta, b):
        """Xβ + Zb, then the offset."""
        zb = [0.0] * self.job.n
        for row, effect in zip(self.job.zt, b):
            for i, value in row:
                zb[i] += value * effect
        return self.shifted([dot(x, beta) + z for x, z in zip(self.job.x, zb)])

    def effects(self, u):
        """b = Λu."""
        return [total(v * u[c] for c, v in row) for row in self.rows]

    def fit_term(self, mu, deviance_sum):
        family = self.job.family
        return aic(family, self.job.y, mu, self.weights, deviance_sum) - 2.0 if uses_dispersion(family) else deviance_sum


def lambda_rows(job):
    """Λ by rows: each block's lower triangle for each of its groups, packed column by column."""
    rows, start = [], 0
    for m, k in job.blocks:
        place, packed = start, {}
        for j in range(k):
            for i in range(j, k):
                packed[i, j] = job.theta[place]
                place += 1
        for _ in range(m):
            base = len(rows)
            rows.extend([(base + j, packed[i, j]) for j in range(i + 1)] for i in range(k))
        start = place
    return rows


def working(problem, eta, mu, phi):
    """The weights w and the working response z."""
    job, w, z = problem.job, [], []
    for i in range(job.n):
        slope = mu_eta(job.link, eta[i])
        spread = larger(variance(job.family, mu[i]), E)
        w.append(larger(over(problem.weights[i] * slope * slope, larger(phi, E) * spread), E))
        if abs(slope) < E:
            slope = math.copysign(E, slope)
        z.append(eta[i] + (job.y[i] - mu[i]) / slope)
    return w, z


def system(problem, w):
    """A = Λ'((Z'WZ)Λ) + I."""
    q = problem.job.q
    weighted = [[0.0] * q for _ in range(q)]
    for a in range(q):
        for b in range(q):
            other = problem.stored[b]
            weighted[a][b] = total(v * other[i] * w[i] for i, v in problem.job.zt[a] if i in other)
    right = [[total(weighted[a][b] * v for b, v in problem.columns[c]) for c in range(q)] for a in range(q)]
    left = [[total(v * right[a][c] for a, v in problem.columns[r]) for c in range(q)] for r in range(q)]
    for i in range(q):
        left[i][i] += 1.0
    return left


def projected(problem, v):
    """Λ'(Z'v)."""
    zv = [total(value * v[i] for i, value in row) for row in problem.job.zt]
    return [total(value * zv[b] for b, value in column) for column in problem.columns]


class Step:
    """One iteration's solution: β, u, b, raw predictor, and the factors it came from."""

    def __init__(self, problem, w, z):
        job = problem.job
        fitted = z if job.offset is None else [a - o for a, o in zip(z, job.offset)]
        self.a = system(problem, w)
        self.factor = ldl(self.a)
        wy = ldl_solve(self.factor, projected(problem, [a * b for a, b in zip(w, fitted)]))
        xw = [[job.x[i][j] * w[i] for i in range(job.n)] for j in range(job.p)]
        v = [projected(problem, column) for column in xw]
        solved = [ldl_solve(self.factor, column) for column in v]
        columns = [[row[j] for row in job.x] for j in range(job.p)]
        normal = [[dot(xw[i], columns[j]) - dot(v[i], solved[j]) for j in range(job.p)] for i in range(job.p)]
        self.low = cholesky(normal)
        side = [dot(xw[i], fitted) - dot(v[i], wy) for i in range(job.p)]
        self.beta = backward(self.low, forward(self.low, side))
        self.u = [wy[i] - total(solved[j][i] * self.beta[j] for j in range(job.p)) for i in range(job.q)]
        self.b = problem.effects(self.u)
        self.raw = problem.predictor(self.beta, self.b)


def tried(problem, account, step, previous, w, z):
    """The accepted candidate with its means and PWRSS. Ended(12) where none is. A refused one is counted for the first test that it fails."""
    inverse = problem.job.link == INVERSE
    size = 1.0
    for _ in range(100 if inverse else 25):
        account.tries += 1
        eta = [e + (r - e) * size for e, r in zip(previous, step.raw)]
        size *= 0.5
        if not all(math.isfinite(e) and (not inverse or e > E) for e in eta):
            account.eta += 1
            continue
        mu = [link_inv(problem.job.link, e) for e in eta]
        if not all(map(math.isfinite, mu)):
            account.mean += 1
            continue
        pwrss = dot(step.u, step.u)
        for i in range(problem.job.n):
            rest = z[i] - eta[i]
            pwrss += w[i] * (rest * rest)
        if math.isfinite(pwrss):
            account.ok += 1
            return eta, mu, pwrss
        account.pwrss += 1
    raise Ended(12)


class Mode:
    """Where an inner fit stopped."""

    def __init__(self, problem, step, eta, mu, iterations):
        self.step, self.eta, self.mu, self.iterations = step, eta, mu, iterations
        self.deviances = problem.deviances(mu)
        self.deviance_sum = total(self.deviances)
        self.fit_term = problem.fit_term(mu, self.deviance_sum)
        logs = total(ln(abs(d)) for d in step.factor[1])
        self.deviance = self.fit_term + logs + dot(step.u, step.u)
        self.order, self.why = 1, 0


def start_means(problem):
    """Where the means begin: the family's start, or R's where the job asks for it."""
    job = problem.job
    if job.start == 1:
        return [trials_mean(w, y) for w, y in zip(problem.weights, job.y)]
    return [start_mean(job.family, y) for y in job.y]


def laplace_fit(problem, account, phi):
    """The inner fit without quadrature."""
    job = problem.job
    mu = start_means(problem)
    eta = problem.shifted([link_fun(job.link, m) for m in mu])
    limit = job.limit if job.limit is not None else 1000 if job.link == INVERSE else 100
    old = LARGEST
    for turn in range(limit):
        w, z = working(problem, eta, mu, phi)
        step = Step(problem, w, z)
        account.solves += 1
        eta, mu, pwrss = tried(problem, account, step, eta, w, z)
        if over(abs(old - pwrss), pwrss + 0.1) < 1e-8:
            return Mode(problem, step, eta, mu, turn + 1)
        old = pwrss
    raise Ended(13)


def spread_factor(matrix):
    """The Cholesky factor of the inverse."""
    try:
        return cholesky(ldl_inverse(matrix))
    except Ended as end:
        raise Declined(SPREAD, "inverse" if end.args[0] == 10 else "factor")


def grid(order, dimensions):
    """Each point's nodes and the sum of its log weights; first dimension lowest."""
    nodes, weights = rule(order)
    logs = [ln(w) for w in weights]
    for t in range(order**dimensions):
        digits = [t // order**d % order for d in range(dimensions)]
        yield [nodes[d] for d in digits], total(logs[d] for d in digits)


def point_deviances(problem, mode, trial):
    eta = problem.predictor(mode.step.beta, problem.effects(trial))
    return problem.deviances([link_inv(problem.job.link, e) for e in eta])


def log_term(log_weight, difference, inverse_phi, penalty):
    return log_weight + (-0.5 * difference * inverse_phi - 0.5 * penalty)


def log_inner(terms):
    value = log_sum_exp(terms)
    if not math.isfinite(value):
        raise Declined(SUM, "log sum")
    return -2.0 * value


def difference(new, old, observations):
    return total(new[i] - old[i] for i in observations)


def scalar_group(problem, account, mode, order, inverse_phi, g):
    """A group with one effect."""
    diagonal, u = mode.step.a[g][g], mode.step.u
    if diagonal <= E or not math.isfinite(diagonal):
        raise Declined(DIAGONAL, "diagonal")
    sigma = over(1.0, sqrt(diagonal))
    terms = []
    for node, weight in zip(*rule(order)):
        moved = u[g] + sigma * node
        new = point_deviances(problem, mode, u[:g] + [moved] + u[g + 1:])
        change = difference(new, mode.deviances, (i for i, _ in problem.job.zt[g]))
        terms.append(log_term(ln(weight), change, inverse_phi, moved * moved - u[g] * u[g]))
        account.points += 1
    return log_inner(terms)


def moved_by(low, node, u):
    """u + Lz, the sums over all of a row."""
    return [a + total(l * z for l, z in zip(row, node)) for row, a in zip(low, u)]


def vector_group(problem, account, mode, order, inverse_phi, g, k):
    """A group with several effects."""
    start, end, u = g * k, (g + 1) * k, mode.step.u
    low = spread_factor([row[start:end] for row in mode.step.a[start:end]])
    seen = sorted({i for row in problem.job.zt[start:end] for i, _ in row})
    terms = []
    for node, weight in grid(order, k):
        moved = moved_by(low, node, u[start:end])
        new = point_deviances(problem, mode, u[:start] + moved + u[end:])
        penalty = total(t * t - h * h for t, h in zip(moved, u[start:end]))
        terms.append(log_term(weight, difference(new, mode.deviances, seen), inverse_phi, penalty))
        account.points += 1
    return log_inner(terms)


def product_deviance(problem, account, mode, order, inverse_phi):
    (m, k), = problem.job.blocks
    whole = 0.0
    for g in range(m):
        whole += scalar_group(problem, account, mode, order, inverse_phi, g) if k == 1 else vector_group(problem, account, mode, order, inverse_phi, g, k)
    return mode.fit_term + whole


def joint_deviance(problem, account, mode, order, inverse_phi):
    u, low = mode.step.u, spread_factor(mode.step.a)
    terms = []
    for node, weight in grid(order, problem.job.q):
        moved = moved_by(low, node, u)
        new = point_deviances(problem, mode, moved)
        terms.append(log_term(weight, difference(new, mode.deviances, range(problem.job.n)), inverse_phi, dot(moved, moved) - dot(u, u)))
        account.points += 1
    return mode.fit_term + log_inner(terms)


def inner_fit(problem, account, phi):
    account.fits += 1
    mode = laplace_fit(problem, account, phi)
    job = problem.job
    single = len(job.blocks) == 1
    try:
        order = product_order(job.n_agq, job.blocks[0][1]) if single else joint_order(job.n_agq, job.q)
        mode.deviance = (product_deviance if single else joint_deviance)(problem, account, mode, order, over(1.0, larger(phi, E)))
        mode.order = order
    except Declined as declined:
        mode.why = declined.args[0]
    return mode


def fit(problem, account):
    """The mode, phi, and whether the dispersion loop converged."""
    if not uses_dispersion(problem.job.family):
        return inner_fit(problem, account, 1.0), 1.0, 1
    effective, phi = larger(total(problem.weights), 1.0), 1.0
    for _ in range(240):
        mode = inner_fit(problem, account, phi)
        if not math.isfinite(mode.deviance_sum) or mode.deviance_sum <= 0.0:
            return mode, phi, 1
        new = larger(mode.deviance_sum / effective, E)
        if over(abs(new - phi), larger(phi, E)) < 1e-8:
            return mode, phi, 1
        used, phi = phi, exp(0.9 * ln(phi) + 0.1 * ln(new))
        if not math.isfinite(phi) or phi <= 0.0:
            return mode, used, 1
    return inner_fit(problem, account, phi), phi, 0


def results(problem, mode, phi):
    """The named lists of a fitted call."""
    low, beta, size = lower_inverse(mode.step.low), mode.step.beta, problem.job.p
    v = [[total(low[r][i] * low[r][j] for r in range(size)) for j in range(size)] for i in range(size)]
    se = [sqrt(v[i][i]) for i in range(size)]
    z = [over(b, s) if s > 0.0 else 0.0 for b, s in zip(beta, se)]
    residual = [y - m for y, m in zip(problem.job.y, mode.mu)]
    return {"deviance": [mode.deviance], "phi": [phi], "beta": beta, "se": se, "z": z, "u": mode.step.u, "b": mode.step.b, "mu": mode.mu, "eta": mode.eta,
            "residual": residual, "v": [entry for row in v for entry in row]}


def call(job):
    """The end's number, order, flag, iterations, the account, why it stayed with Laplace, and the results of a fitted call."""
    problem, account = Problem(job), Account()
    try:
        mode, phi, flag = fit(problem, account)
    except Ended as end:
        return end.args[0], 0, 0, 0, account, 0, {}
    return 0, mode.order, flag, mode.iterations, account, mode.why, results(problem, mode, phi)
