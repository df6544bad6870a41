"""Random jobs by kind. A kind is a function of a generator (random.Random) that gives a description; KINDS has the share of each in a mix. No function of
the C library enters, so a seed gives the same jobs everywhere."""
import random
from form import job_bytes

BASE = [("binomial", "logit"), ("binomial", "cloglog"), ("poisson", "log"), ("poisson", "identity"), ("poisson", "sqrt"), ("gaussian", "identity"),
        ("gaussian", "log"), ("gaussian", "inverse")]
GAMMA = [("gamma", "inverse"), ("gamma", "identity"), ("gamma", "log")]
PROBIT = ("binomial", "probit")
PAIRS = [BASE[0], PROBIT, *BASE[1:], *GAMMA]
FREE = ("gaussian", "gamma")  # the families with a free dispersion
CHEAP = BASE[:5] * 4 + BASE[5:]  # for large jobs: few that run the dispersion loop
STEEP = [("gaussian", "log"), ("gaussian", "inverse"), ("poisson", "log"), ("poisson", "sqrt"), ("poisson", "identity"), ("binomial", "cloglog")]


def between(r, low, high):
    return low + (high - low) * r.random()


def bell(r):
    """About normal, by twelve uniform numbers."""
    return sum(r.random() for _ in range(12)) - 6.0


def some_blocks(r, most_q, count=None, most_k=3):
    """Blocks whose effects sum to at most most_q."""
    blocks, left = [], most_q
    for _ in range(count or r.choice([1, 1, 1, 2, 2, 3])):
        if left < 1:
            break
        k = r.randint(1, min(most_k, left))
        m = r.randint(1, max(1, min(left // k, 6)))
        blocks.append({"m": m, "k": k})
        left -= m * k
    return blocks


def some_theta(r, blocks):
    """Positive on the diagonal, either sign below it."""
    theta = []
    for block in blocks:
        for j in range(block["k"]):
            theta += [between(r, 0.2, 1.5) if i == j else between(r, -0.5, 0.5) for i in range(j, block["k"])]
    return theta


def effect_value(r, effect):
    return 1.0 if effect == 0 else between(r, -1.0, 1.0)


def some_rows(r, n, blocks, several=0.0):
    """Z': every observation in one group of each block; with chance `several` also in rows of another group."""
    rows = []
    for block in blocks:
        mine = [[] for _ in range(block["m"] * block["k"])]
        for i in range(n):
            groups = {r.randrange(block["m"])} | ({r.randrange(block["m"])} if r.random() < several else set())
            for g in sorted(groups):
                for e in range(block["k"]):
                    mine[g * block["k"] + e].append([i, effect_value(r, e)])
        rows += mine
    return rows


def some_x(r, n, p):
    return [[1.0] + [between(r, -1.0, 1.0) for _ in range(p - 1)] for _ in range(n)]


def response(r, family, link):
    """One plausible response."""
    if family == "binomial":
        size = r.randint(1, 10)
        return r.randint(0, size) / size
    if family == "poisson":
        return float(r.randint(0, 2) + r.randint(0, 6) * (r.random() < 0.5))
    if family == "gamma":
        return between(r, 0.2, 1.5) * between(r, 0.5, 2.0) * r.choice([1.0, 1.0, 3.0])
    if link == "identity":
        return bell(r)
    return between(r, 0.5, 3.0)


def description(r, pair, n, p, blocks, several=0.0):
    return {"family": pair[0], "link": pair[1], "n_agq": 1, "limit": None, "blocks": blocks, "theta": some_theta(r, blocks),
            "y": [response(r, *pair) for _ in range(n)], "weights": None, "offset": None, "x": some_x(r, n, p), "zt": some_rows(r, n, blocks, several)}


def positive_weights(r, about):
    about["weights"] = [float(r.randint(1, 9)) if r.random() < 0.5 else between(r, 0.1, 3.0) for _ in about["y"]]


def small_offset(r, about):
    about["offset"] = [r.choice([0.0, -0.0, between(r, -0.4, 0.4), between(r, -0.4, 0.4)]) for _ in about["y"]]


def dressed(r, about):
    """Weights, an offset, a wish, a limit, each in some of the jobs."""
    if r.random() < 0.35:
        positive_weights(r, about)
    if r.random() < 0.35:
        small_offset(r, about)
    if r.random() < 0.4:
        about["n_agq"] = r.randint(0, 31)
    if r.random() < 0.15:
        about["limit"] = r.choice([20, 50, 200, 1000])
    return about


def plain(r):
    """Every family and link, small."""
    n = r.randint(2, 14)
    return dressed(r, description(r, r.choice(BASE), n, r.randint(1, max(1, min(3, n // 3))), some_blocks(r, 6), r.choice([0.0, 0.0, 0.3])))


def middle(r):
    """20 to 80 observations."""
    n = r.randint(20, 80)
    return dressed(r, description(r, r.choice(BASE), n, r.randint(1, 5), some_blocks(r, 16), r.choice([0.0, 0.3])))


def large(r):
    """Up to 512 observations, 16 columns and 32 effects, within the bytes of a job."""
    n = r.choice([512, 512, r.randint(200, 511)])
    p = r.choice([1, 2, 6, 14 if n == 512 else 10])
    most = (58000 - 8 * n * (p + 2)) // (10 * n)
    about = description(r, r.choice(CHEAP), n, p, some_blocks(r, 32, None if most >= 3 else 1, max(1, min(8, most))))
    if r.random() < 0.5 and len(job_bytes(about)) + 8 * n <= 65536:
        positive_weights(r, about)
    return about if len(job_bytes(about)) <= 65536 else large(r)


def wide(r):
    """16 columns, 32 effects, few observations."""
    n = r.randint(34, 60)
    blocks = r.choice([[{"m": 32, "k": 1}], [{"m": 4, "k": 8}], [{"m": 1, "k": 4}] * 8, [{"m": 2, "k": 2}] * 8, [{"m": 16, "k": 1}, {"m": 8, "k": 2}]])
    return dressed(r, description(r, r.choice(CHEAP), n, 16, blocks))


def exact(r):
    """A job of 65,536 bytes to the byte: weights and offset, then as many entries as there is room for."""
    about = description(r, ("poisson", "log"), 512, 1, [{"m": 8, "k": 4}])
    positive_weights(r, about)
    small_offset(r, about)
    about["zt"] = [[] for _ in about["zt"]]
    for t in range((65536 - len(job_bytes(about))) // 10):
        row, i = t % 32, t // 32 * 3 + t % 3
        about["zt"][row].append([i, effect_value(r, row % 4)])
    return about


def least(r):
    """One observation, with 1 or 32 effects."""
    blocks = r.choice([[{"m": 1, "k": 1}], [{"m": 32, "k": 1}], [{"m": 4, "k": 8}], [{"m": 16, "k": 2}], [{"m": 4, "k": 1}] * 8])
    return dressed(r, description(r, r.choice(BASE), 1, 1, blocks, 0.5))


def scalar(r):
    """Quadrature of one block with one effect."""
    about = description(r, r.choice(BASE), r.randint(4, 20), r.randint(1, 2), [{"m": r.randint(1, 8), "k": 1}], r.choice([0.0, 0.0, 0.4]))
    about = dressed(r, about)
    about["n_agq"] = r.choice([2, 3, 4, 5, 7, 8, 9, 10, 11, 12, 31])
    return about


def product(r):
    """Quadrature of one block with several effects; none from six effects on."""
    k = r.choice([2, 2, 2, 3, 3, 4, 5, 6, 8])
    about = description(r, r.choice(BASE), r.randint(5, 12), r.randint(1, 2), [{"m": r.randint(1, 3), "k": k}], r.choice([0.0, 0.3]))
    about = dressed(r, about)
    about["n_agq"] = r.randint(2, 12)
    return about


def joint(r):
    """Quadrature over several blocks; none from nine effects on."""
    about = description(r, r.choice(BASE), r.randint(4, 10), r.randint(1, 2), some_blocks(r, r.choice([3, 4, 4, 5, 6, 8, 10]), 2, 2), r.choice([0.0, 0.3]))
    about = dressed(r, about)
    about["n_agq"] = r.randint(2, 12)
    return about


def strong(r):
    """Large effects u: few groups that lie far apart, theta below 1. Here a sum of squares tells its order."""
    about = description(r, r.choice(BASE[2:6]), r.randint(5, 9), 1, r.choice([[{"m": 2, "k": 1}, {"m": 1, "k": 2}], [{"m": 3, "k": 1}, {"m": 2, "k": 1}], [{"m": 2, "k": 2}]]), 0.2)
    low = r.choice(about["zt"])
    for i, _ in low:
        about["y"][i] += float(r.randint(30, 300))
    about["theta"] = [v * 0.4 for v in about["theta"]]
    return {**about, "n_agq": r.choice([2, 3, 5, 7])}


def full_joint(r):
    """Eight effects in two blocks: 6,561 points."""
    about = description(r, r.choice(BASE[:5]), r.randint(3, 5), 1, [{"m": 3, "k": 2}, {"m": 2, "k": 1}])
    return {**about, "n_agq": 11}


def weights(r):
    """Weights that are zero, negative, huge or tiny among others."""
    about = r.choice([plain, scalar, joint])(r)
    about["weights"] = [r.choice([0.0, -0.0, -1.0, -between(r, 0.0, 3.0), 1e-20, 1e6, 1.0, 1.0, 2.0, between(r, 0.1, 3.0)]) for _ in about["y"]]
    return about


def thetas(r):
    """Theta with zeros, negative and large numbers."""
    about = r.choice([plain, scalar, product, joint])(r)
    about["theta"] = [r.choice([0.0, -0.0, -1.0, between(r, -2.0, 2.0), between(r, -2.0, 2.0), 30.0, 1e-9]) for _ in about["theta"]]
    if r.random() < 0.3:
        about["theta"] = [0.0] * len(about["theta"])
    return about


def stored_zeros(r):
    """Z' with stored zeros, empty rows, values of either sign; an observation in several rows of a block."""
    about = r.choice([plain, scalar, product, joint])(r)
    n = len(about["y"])
    about["zt"] = [[[i, r.choice([0.0, -0.0, 1.0, between(r, -1.5, 1.5)])] for i in range(n) if r.random() < 0.5] for _ in about["zt"]]
    return about


def limits(r):
    """Few iterations: most end without passing the stop test."""
    about = r.choice([plain, scalar, joint])(r)
    about["limit"] = r.choice([0, 1, 1, 2, 2, 3, 3, 4, 5, 6, 8])
    return about


def dispersion(r):
    """Gaussian with effects that take up nearly all residuals: slow rounds, some to the last."""
    n = r.randint(3, 9)
    blocks = [{"m": r.randint(max(1, n - 4), n), "k": 1}]
    about = description(r, r.choice(BASE[5:]), n, 1, blocks)
    if r.random() < 0.5:
        about["zt"] = [[[i, 1.0] for i in range(n) if i % blocks[0]["m"] == g] for g in range(blocks[0]["m"])]
    about["theta"] = [r.choice([between(r, 0.1, 1.0), between(r, 0.5, 2.0), between(r, 2.0, 20.0)])]
    if r.random() < 0.3:
        about["n_agq"] = r.choice([3, 5])
    if r.random() < 0.3:
        positive_weights(r, about)
    return about


def no_residual(r):
    """Gaussian whose residuals are all zero: an infinite deviance."""
    about = description(r, ("gaussian", "identity"), r.randint(1, 4), 1, [{"m": 1, "k": 1}])
    about["y"] = [r.choice([0.0, 2.0])] * len(about["y"])
    return {**about, "n_agq": r.choice([1, 1, 3, 11])}


def in_vain(r):
    """No step is accepted: a start without a logarithm, residuals whose squares overflow, or (inverse link) a predictor that stays below zero."""
    about = description(r, r.choice([("gaussian", "log"), ("gaussian", "identity"), ("poisson", "log"), ("gaussian", "inverse")]), r.randint(2, 5), 1, some_blocks(r, 4))
    if about["link"] == "inverse":
        about["offset"] = [-9.0] + [0.0] * (len(about["y"]) - 1)
        about["x"][0] = [0.0]
        about["zt"] = [[entry for entry in row if entry[0] > 0] for row in about["zt"]]
    else:
        about["y"][0] = -1.0 if about["link"] == "log" else 1e200
    return about


def squares(r):
    """Residuals whose squares overflow at the whole step, and in most jobs not at a part of it: just above the largest double, or of one row with another's beta."""
    n = 2 * r.randint(1, 2)
    about = description(r, r.choice([("gaussian", "identity"), ("poisson", "identity")]), n, 1, some_blocks(r, 3, 1, 1))
    if about["family"] == "gaussian":
        size = (1.7976931348623157e308 / n) ** 0.5 * between(r, 1.0, 1.02)
        about["y"], about["theta"] = [size, -size] * (n // 2), [between(r, 0.0, 1e-3)]
    else:
        about["y"][-1], about["x"][-1] = between(r, 1.0, 9.0) * r.choice([1e162, 1e163, 1e164]), [r.choice([1e9, 1e10, 1e11])]
        about["zt"] = [[entry for entry in row if entry[0] == n - 1] for row in about["zt"]]
    return {**about, "limit": r.choice([None, None, None, 1])}


def halved(r):
    """Inverse link with responses of many sizes: steps that leave the positive predictors are halved, and most jobs still fit."""
    n = r.randint(4, 9)
    about = description(r, ("gaussian", "inverse"), n, 2, some_blocks(r, 3, 1, 1))
    about["x"] = [[1.0, between(r, -3.0, 3.0)] for _ in range(n)]
    about["y"] = [r.choice([between(r, 0.05, 0.5), between(r, 0.5, 2.0), between(r, 2.0, 9.0)]) for _ in range(n)]
    about["theta"] = [between(r, 0.0, 0.3)]
    return about


def overshot(r):
    """Log link with a column that reaches far out: means overflow, steps are halved, and the way back is long."""
    n = r.randint(4, 7)
    about = description(r, ("poisson", "log"), n, 2, some_blocks(r, 3, 1, 1))
    about["x"] = [[1.0, between(r, -1.0, 1.0)] for _ in range(n - 1)] + [[1.0, r.choice([300.0, 1000.0, 1e5])]]
    about["y"][:2], about["weights"] = [1.0, 60.0], [1.0] * (n - 1) + [1e-12]
    return {**about, "limit": r.choice([None, 1000, 1000])}


def far(r):
    """Starts so far away that steps are halved; many in vain."""
    about = description(r, r.choice(STEEP), r.randint(2, 8), r.randint(1, 2), some_blocks(r, 4))
    span = r.choice([5.0, 30.0, 300.0, 800.0])
    about["offset"] = [between(r, -span, span) for _ in about["y"]]
    if about["link"] in ("log", "inverse") and r.random() < 0.6:
        about["y"] = [r.choice([1e-3, 0.01, 0.5, 3.0, 50.0, 1e4]) for _ in about["y"]]
    return about


def singular(r):
    """Columns of X that depend on each other, or are zero."""
    about = plain(r)
    n = len(about["y"])
    other = r.choice([lambda row: row[0], lambda row: 0.0, lambda row: 2.0 * row[0], lambda row: row[0] + 1e-9 * r.random()])
    about["x"] = [[between(r, -2.0, 2.0) if n > 3 else 1.0] for _ in range(n)]
    about["x"] = [row + [other(row)] for row in about["x"]]
    return about


def pivots(r):
    """Pivots of A that vanish or overflow, in the fit or in the quadrature alone."""
    about = r.choice([plain, scalar, product, joint])(r)
    size = r.choice([1e8, 3e8, 1e10, 1e20, 1e154, 1e160, 1e300])
    about["zt"] = [[[i, r.choice([1.0, 1.0, v, 1.0 + 1e-9 * r.random()])] for i, v in row] for row in about["zt"]]
    about["theta"] = [v * size for v in about["theta"]]
    about["n_agq"] = r.choice([1, 3, 5, 11])
    return about


def apart(about):
    """X in the last observation alone, which no row of Z' has: then large effects do not spoil the normal matrix."""
    last = len(about["y"]) - 1
    about["x"] = [[1.0 if i == last else 0.0] for i in range(last + 1)]
    about["zt"] = [[entry for entry in row if entry[0] < last] for row in about["zt"]]
    return about


def coupled(r):
    """Large effects on the same observations: an inverse that cannot be factored, so that the quadrature declines."""
    blocks = r.choice([[{"m": 1, "k": 2}], [{"m": 1, "k": 3}], [{"m": 2, "k": 2}], [{"m": 1, "k": 1}, {"m": 1, "k": 1}], [{"m": 1, "k": 2}, {"m": 1, "k": 1}]])
    about = description(r, r.choice(BASE), r.randint(3, 6), 1, blocks)
    size = r.choice([2e7, 3e7, 5e7, 1e8, 2e8])
    n = len(about["y"])
    about["zt"] = [[[i, 1.0 + (r.choice([0.0, 1e-8, 1e-7]) * r.random())] for i in range(n) if r.random() < 0.8] for _ in about["zt"]]
    about["theta"] = [v * size for v in about["theta"]]
    return {**apart(about), "n_agq": r.choice([3, 5, 11])}


def later_group(r):
    """The first group is sound, the second is too large: a quadrature that declines with points counted."""
    about = description(r, r.choice(BASE[:5]), 7, 1, [{"m": 2, "k": 2}])
    size = r.choice([1e7, 3e7, 1e8])
    about["zt"] = [[[0, 1.0], [1, 1.0], [2, 1.0]], [[0, 0.5], [1, -0.5], [2, between(r, -1.0, 1.0)]],
                   [[i, size * (1.0 + r.choice([0.0, 1e-8]))] for i in (3, 4, 5)], [[i, size * (1.0 + r.choice([0.0, 1e-8]))] for i in (3, 4, 5)]]
    return {**apart(about), "n_agq": r.choice([3, 7])}


def second_block(r):
    """The second group's block alone has a pivot of zero, by rounding; in A the first group changes it. So the fit goes on and the inverse declines."""
    about = description(r, ("gaussian", "identity"), 4, 1, [{"m": 2, "k": 2}])
    step = float(r.randint(9, 11))
    about["y"], about["theta"] = [0.0] * 4, [1.0, 0.0, 1.0]
    about["zt"] = [[[1, 10.0]], [[2, between(r, 0.5, 2.0)]], [[0, 2.0**30], [1, step]], [[0, 2.0**30]]]
    return {**apart(about), "n_agq": r.randint(2, 7)}


def outlying(r, about, weight, far):
    """The last observation without X, of another weight, and far out in one row of Z'."""
    last = len(about["y"]) - 1
    about["x"], about["weights"] = [[float(i < last)] for i in range(last + 1)], [1.0] * last + [weight]
    about["zt"] = [[entry for entry in row if entry[0] < last] for row in about["zt"]]
    r.choice(about["zt"]).append([last, far])
    return about


def weightless(r):
    """A weight of 0 where the means of outer points overflow: 0 times infinity, so that the quadrature declines after its points."""
    blocks = r.choice([[{"m": 1, "k": 1}], [{"m": 2, "k": 1}], [{"m": 1, "k": 2}], [{"m": 1, "k": 1}] * 2])
    about = description(r, r.choice([("gaussian", "log"), ("gaussian", "log"), ("poisson", "log")]), r.randint(4, 7), 1, blocks)
    return {**outlying(r, about, 0.0, r.choice([1e3, 1e4, 1e5])), "n_agq": r.choice([3, 5])}


def reaching(r):
    """An effect that reaches far out at an observation of little weight: no step is accepted, in some jobs in a late round of the dispersion loop only."""
    about = description(r, ("gaussian", "log"), r.randint(3, 7), 1, [{"m": 2, "k": 1}])
    about["y"] = [v * r.choice([1e-3, 0.1, 1.0, 1.0, 100.0, 1e4]) for v in about["y"]]
    far = between(r, 1.0, 9.0) * r.choice([1e5, 1e6, 1e7, 1e8, 1e9])
    about["theta"] = [between(r, 0.1, 9.0) * r.choice([1e4, 1e5, 1e6, 1e7]) / far]
    return outlying(r, about, r.choice([0.0, 1e-30, 1e-12, 1e-6]), far)


def out_of_range(r):
    """Responses outside the family's range, at its ends, or so near to nothing that their logarithm is."""
    about = r.choice([plain, scalar, product, joint])(r)
    values = r.choice([[-1.0, -0.25, -1e-3, -5e-324], [1.5, 2.0, 1.02, 1.0000000000000002], [-0.0, 0.0, 1.0], [1e-320, 5e-324]])
    for _ in range(r.randint(1, 2)):
        about["y"][r.randrange(len(about["y"]))] = r.choice(values)
    return about


def extremes(r):
    """Huge and tiny numbers in one of the lists."""
    about = plain(r)
    values = r.choice([[1e300, 1.0], [1e-300, 1.0], [1e155, -1e155], [5e-324, -5e-324, 0.0], [1.7976931348623157e308, -1.7976931348623157e308], [1e17, 1.0], [1e-17, 1.0]])
    name = r.choice(["y", "offset", "weights", "theta", "x", "zt"])
    if name == "x":
        about["x"] = [[r.choice(values) for _ in row] for row in about["x"]]
    elif name == "zt":
        about["zt"] = [[[i, r.choice(values)] for i, _ in row] for row in about["zt"]]
    else:
        about[name] = [r.choice(values) for _ in about["theta" if name == "theta" else "y"]]
    return about


def trials(r):
    """Binomial counts: the weights are numbers of trials, some none, and the responses shares of them; version 2, most with R's start."""
    about = r.choice([plain, plain, middle, scalar, product, joint, limits, thetas])(r)
    about["family"], about["link"] = r.choice(BASE[:2])
    most = r.choice([3, 12, 200])
    about["weights"] = [float(r.randint(0 if r.random() < 0.2 else 1, most)) for _ in about["y"]]
    about["y"] = [r.randint(0, int(w)) / w if w else r.choice([0.0, 0.25, 1.0]) for w in about["weights"]]
    return {**about, "version": 2, "start": r.choice(["trials", "trials", "trials", "usual"])}


def gamma(r):
    """Gamma in a job of another kind, with responses of its own or the kind's; some with weights that sum to less than 1, or with nearly equal responses."""
    own = r.choice([plain, plain, middle, scalar, product, joint, weights, thetas, stored_zeros, limits, dispersion, dispersion, least, singular, pivots, coupled, later_group, weightless])
    kind = r.choice([own, own, own, r.choice([out_of_range, extremes, far, halved, reaching, in_vain, no_residual])])
    about = kind(r)
    about["family"], about["link"] = r.choice(GAMMA)
    if kind is own:
        about["y"] = [response(r, *GAMMA[0]) for _ in about["y"]]
    if r.random() < 0.1:
        about["weights"] = [between(r, 0.1, 0.9) / len(about["y"]) for _ in about["y"]]
    elif r.random() < 0.05:
        about["y"], about["theta"] = [1.5 + r.randint(0, 3) * 2.0**r.choice([-28, -32]) for _ in about["y"]], [0.0 for _ in about["theta"]]
    return about


def probit(r):
    """Probit in a job of another kind, with responses of its own or the kind's; some with predictors past the ends of the means and of the density's floor, or with so many trials
    that a start is clamped."""
    own = r.choice([plain, plain, middle, scalar, product, joint, weights, thetas, stored_zeros, limits, least, wide, singular, pivots, coupled, later_group, far, trials, trials])
    kind = r.choice([own] * 8 + [out_of_range, extremes])
    about = kind(r)
    about["family"], about["link"] = PROBIT
    if kind is own and kind is not trials:
        about["y"] = [response(r, *PROBIT) for _ in about["y"]]
    if about.get("start") == "trials" and r.random() < 0.2:
        about["weights"] = [w * r.choice([1.0, 1e17, 1e20]) for w in about["weights"]]
    if r.random() < 0.15:
        about["offset"] = [r.choice([0.0, 0.0, 0.0, -8.1, 8.1, -8.25, 8.25, -9.0, 9.0, -40.0, 40.0]) for _ in about["y"]]
    return about


def refused(r):
    """One fault of the table: 1, 6, 3, 4, 9 or 27; or two of them."""
    about = plain(r)
    for fault in r.sample([bad_size, bad_columns, bad_number, bad_pair, bad_response, bad_start], r.choice([1, 1, 1, 2])):
        fault(r, about)
    return about


def bad_size(r, about):
    name, value = r.choice([("n", 0), ("n", 513), ("n", 8191), ("p", 0), ("p", 17), ("p", 31), ("count", 0), ("m", 0), ("k", 0), ("k", 9), ("k", 15), ("m", 127)])
    if name in ("m", "k"):
        about["blocks"] = [dict(b) for b in about["blocks"]]
        r.choice(about["blocks"])[name] = value
    else:
        about[name] = value


def bad_columns(r, about):
    n, row = len(about["y"]), r.choice(about["zt"])
    row[:] = r.choice([[[n, 1.0]], [[0, 1.0], [0, 2.0]], [[8191, 1.0]], [[n - 1, 1.0], [0, 1.0]] if n > 1 else [[1, 1.0]]])


def bad_number(r, about):
    value = r.choice(["nan", "inf", "-inf", "7FF0000000000001", "FFF8000000000000"])
    lists = [about["theta"], about["y"], *about["x"], *(row for row in about["zt"])] + [about[name] for name in ("weights", "offset") if about[name]]
    place = r.choice([l for l in lists if l])
    i = r.randrange(len(place))
    place[i] = [place[i][0], value] if isinstance(place[i], list) else value


def bad_pair(r, about):
    about["family"], about["link"] = r.choice([("binomial", "log"), ("binomial", "sqrt"), ("poisson", "logit"), ("poisson", "inverse"), ("gaussian", "sqrt"),
                                               ("gaussian", "probit"), ("gamma", "logit"), ("gamma", "sqrt")])


def bad_response(r, about):
    """A number that binomial, Poisson and Gamma responses cannot be."""
    about["y"][r.randrange(len(about["y"]))] = r.choice([-1.0, -1e-3, -5e-324])


def bad_start(r, about):
    """R's start for another family, or with a weight below 0."""
    about["version"], about["start"] = 2, "trials"
    if about["family"] == "binomial":
        about["weights"] = [1.0 for _ in about["y"]]
        about["weights"][r.randrange(len(about["y"]))] = r.choice([-1.0, -1e-3, -5e-324])


KINDS = {plain: 24, middle: 6, scalar: 8, product: 8, joint: 6, strong: 4, weights: 5, thetas: 5, stored_zeros: 5, limits: 3, dispersion: 6, halved: 4, overshot: 1, far: 3, least: 3, wide: 2,
         singular: 2, in_vain: 1, squares: 1, pivots: 3, coupled: 4, later_group: 1, second_block: 1, weightless: 1, reaching: 1, out_of_range: 3, extremes: 3, no_residual: 1, refused: 3, large: 1, full_joint: 1, trials: 6, gamma: 30, probit: 14}


def points(about, wish):
    """Points of one quadrature, were it not to step down from the first order not below the wish."""
    order = next((o for o in (3, 5, 7, 9, 11) if o >= wish), 11)
    blocks = about["blocks"]
    m, k = (blocks[0]["m"], blocks[0]["k"]) if len(blocks) == 1 else (1, sum(b["m"] * b["k"] for b in blocks))
    return m * min(order**k, 7000)


def spared(about):
    """The job, its wish lowered where some two hundred rounds of the dispersion loop would each take many points."""
    wish = about.get("n_agq", 1)
    if about["family"] not in FREE or wish < 2 or points(about, wish) <= 60:
        return about
    return {**about, "n_agq": 3 if points(about, 3) <= 60 else 1}


def versioned(r, about):
    """The job, half of the binomial ones in version 2, most of these with R's start, and some of the others with the start that they have; none longer than a job can be."""
    if "version" in about or len(job_bytes(about)) >= 65536:
        return about
    binomial = about["family"] == "binomial"
    if r.random() >= (0.5 if binomial else 0.1):
        return about
    return {**about, "version": 2, "start": "trials" if binomial and r.random() < 0.75 else "usual"}


def named_kinds():
    return {kind.__name__: kind for kind in [*KINDS, exact]}


def random_jobs(seed, count, kind=None):
    """(name, bytes) of `count` jobs; job i of a seed is the same whatever the count."""
    kinds, shares = list(KINDS), list(KINDS.values())
    for i in range(count):
        r = random.Random(f"{seed}/{i}")
        chosen = named_kinds()[kind] if kind else r.choices(kinds, shares)[0]
        yield f"{chosen.__name__}-{seed}-{i}", job_bytes(versioned(r, spared(chosen(r))))
