"""Jobs at the largest sizes that 65,536 bytes hold, for each family and link: a list that depends on nothing but this file and kinds.py. No job has 512
observations and 16 columns, and none has more than 6,233 entries of Z'."""
import random
from form import job_bytes
from kinds import FREE, PAIRS, between, description, positive_weights, small_offset

LONGEST = 65536
CORNERS = {  # observations, columns of X, blocks, whether there are weights and an offset, wish
    "columns": (512, 14, [{"m": 32, "k": 1}], False, 1), "squares": (481, 16, [{"m": 1, "k": 1}], False, 11), "entries": (195, 1, [{"m": 32, "k": 1}], False, 1),
    "blocks": (512, 1, [{"m": 1, "k": 4}] * 8, False, 1), "effects": (512, 3, [{"m": 4, "k": 8}], True, 1), "all": (96, 16, [{"m": 4, "k": 2}] * 4, True, 1),
    "one": (512, 2, [{"m": 32, "k": 1}], True, 31), "product": (512, 2, [{"m": 10, "k": 3}], False, 31),
    "joint": (512, 1, [{"m": 2, "k": 2}, {"m": 4, "k": 1}], False, 31)}


def steady(r, pair):
    """A response that every link can follow from a start near it."""
    if pair[0] == "binomial":
        return r.randint(1, 9) / 10
    return float(r.randint(4, 9)) if pair[0] == "poisson" else between(r, 1.0, 2.0)


def filled(r, about, room):
    """Z' with as many entries as `room` bytes hold, spread over the rows."""
    rows, n = about["zt"], len(about["y"])
    count = min(room // 10, len(rows) * n)
    for row, entries in enumerate(rows):
        mine = count // len(rows) + (row < count % len(rows))
        entries += [[i, between(r, -1.0, 1.0)] for i in sorted(r.sample(range(n), mine))]


def corner(name, pair, start=None):
    n, p, blocks, dressed, wish = CORNERS[name]
    n = 40 if name in ("product", "joint") and pair[0] in FREE else n  # some two hundred inner fits, each with all points
    r = random.Random(f"{name}/{'/'.join(pair)}")
    about = description(r, pair, n, p, blocks) | ({"version": 2, "start": start} if start else {})
    about["y"], about["zt"] = [steady(r, pair) for _ in range(n)], [[] for _ in about["zt"]]
    about["theta"] = [0.05 * v for v in about["theta"]]
    about["x"] = [[1.0] + [0.1 * v for v in row[1:]] for row in about["x"]]
    if dressed:
        positive_weights(r, about)
        small_offset(r, about)
    filled(r, about, LONGEST - len(job_bytes(about)))
    return {**about, "n_agq": wish}


def corner_jobs():
    """(name, bytes) of every corner with every family and link, and of those with weights in version 2, binomial, with R's start."""
    for name in CORNERS:
        for pair in PAIRS:
            yield f"corner-{name}-{'-'.join(pair)}", job_bytes(corner(name, pair))
    for name in ("effects", "all", "one"):
        for pair in PAIRS[:3]:
            yield f"corner-{name}-{'-'.join(pair)}-trials", job_bytes(corner(name, pair, "trials"))
