"""The jobs whose fits are timed, the same ones each time: those that document the speed, and those that show how it grows."""
import random
from pathlib import Path
from form import from_groups, job_bytes
from kinds import description, some_x

EXAMPLES = Path(__file__).resolve().parents[2] / "examples"
LOGIT = ("binomial", "logit")


def made(name, pair, n, p, blocks, n_agq=1):
    """A job of m groups of k effects in each block; the name is its seed."""
    shape = [{"m": m, "k": k} for m, k in blocks]
    return name, job_bytes({**description(random.Random(name), pair, n, p, shape), "n_agq": n_agq})


def example(name):
    return name, (EXAMPLES / f"{name}.job").read_bytes()


def cells(name, n, p, theta, *groups):
    """A job of single cells, weak or not, without weights; groups: of each block the group of a cell by its place, so that the groups are interleaved. The name is its seed."""
    r = random.Random(name)
    about = {"family": "binomial", "link": "logit", "theta": theta, "y": [float(r.random() < 0.4) for _ in range(n)], "x": some_x(r, n, p),
             "blocks": [{"group": list(map(group, range(n)))} for group in groups]}
    return name, job_bytes(from_groups(about))


# What is timed, the ratio to the Rust's time that is aimed at, and the job. 13 columns are the most that a job with 512 responses and 32 groups can hold.
KINDS = [
    ("small Laplace fit (examples/wafers)", 1.0, example("wafers")),
    ("largest Laplace fit", 1.0, made("largest", LOGIT, 512, 13, [(32, 1)])),
    ("product rule, k = 1, 32 groups", 0.25, made("one", LOGIT, 512, 2, [(32, 1)], 11)),
    ("product rule, k = 2, 16 groups", 0.25, made("two", LOGIT, 256, 2, [(16, 2)], 11)),
    ("joint rule, q = 8", 0.25, made("joint", LOGIT, 64, 2, [(4, 1), (4, 1)], 3)),
    ("dispersion loop (examples/dark)", 1.0, example("dark")),
]

# What grows, and its jobs.
GROWTH = {
    "n": [made(f"n{n}", LOGIT, n, 4, [(8, 1)]) for n in (32, 64, 128, 256, 512)],
    "q": [made(f"q{q}", LOGIT, 256, 4, [(q, 1)]) for q in (1, 2, 4, 8, 16, 32)],
    "points": [(f"points{order}", made("points", LOGIT, 64, 2, [(2, 1), (2, 1)], order)[1]) for order in (3, 5, 7, 9)],
}

# What is timed beside lme4, the ratio to its time that is aimed at for glmm_fit_job_theta and for glmm_fit_blocks, and the job. A job of 512 responses with weights could not hold 13
# columns, so the lot is of single cells.
BESIDE = [
    ("the wafers (examples/wafers)", 0.5, None, example("wafers")),
    ("the largest lot, groups interleaved", 0.9, 0.75, cells("lot", 512, 13, [0.7], lambda i: i % 32)),
    ("two crossed blocks", None, None, cells("crossed", 480, 4, [0.8, 0.6], lambda i: i % 20, lambda i: i // 20 % 12)),
]
