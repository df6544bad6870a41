"""Inputs of `fitmany` (document 02, P1): a job's length in three bytes, the job, and responses; fixed ones and random ones."""
import random
import corners, damage, kinds
from form import job_bytes, number_bytes
from reader import Refused, parse


def packed(job, responses, odd=b""):
    """An input: the length, the job, the responses, and bytes that are none."""
    return len(job).to_bytes(3, "big") + job + b"".join(number_bytes(y) for ys in responses for y in ys) + odd


# ---- responses of a random job

def own(r, about):
    return list(about["y"])


def permuted(r, about):
    return r.sample(about["y"], len(about["y"]))


def another(r, about):
    return [kinds.response(r, about["family"], about["link"]) for _ in about["y"]]


def level(r, about):
    """The same number throughout, at an end of the range where it has one."""
    value = {"binomial": [0.0, 1.0, 0.5], "poisson": [0.0, 1.0, 7.0], "gaussian": [0.0, 1.0, -2.0], "gamma": [1.0, 5e-324]}[about["family"]]
    return [r.choice(value)] * len(about["y"])


def scattered(r, about):
    """Numbers of many sizes, within the range."""
    if about["family"] == "binomial":
        return [r.choice([0.0, 0.0, 1.0, 1.0, 1e-9, 0.5]) for _ in about["y"]]
    return [r.choice([1e-3, 0.01, 0.5, 3.0, 50.0, 1e4]) for _ in about["y"]]


def enormous(r, about):
    """One or all so large or small, or (Gaussian) below 0, that few fits come to rest."""
    ys, sizes = another(r, about), {"binomial": [0.0, 1.0], "gaussian": [1e200, -1e200, -1.0, -50.0, 1e300], "poisson": [1e100, 1e164, 1e300], "gamma": [1e-200, 1e155, 1e300, 1e100]}
    size = r.choice(sizes[about["family"]])
    return [size] * len(ys) if r.random() < 0.3 else [size, *ys[1:]] if r.random() < 0.5 else [*ys[:-1], size]


def not_finite(r, about):
    ys = another(r, about)
    ys[r.randrange(len(ys))] = r.choice(["nan", "inf", "-inf", "7FF0000000000001", "FFF8000000000000"])
    return ys


def out_of_range(r, about):
    ys = another(r, about)
    ys[r.randrange(len(ys))] = r.choice({"binomial": [-1.0, 1.5, 1.0000000000000002, -5e-324], "poisson": [-1.0, -5e-324], "gamma": [0.0, -0.0, -1.0], "gaussian": [-1.0]}[about["family"]])
    return ys


SOUND = {own: 3, permuted: 3, another: 4, level: 2, scattered: 3, enormous: 3}
FAULTY = [not_finite, out_of_range]


def some_responses(r, about, count):
    """So many responses of every make; in one of twelve inputs one that is refused, in half of those the last."""
    found = [make(r, about) for make in r.choices(list(SOUND), list(SOUND.values()), k=count)]
    if found and r.random() < 1 / 12:
        found[-1 if r.random() < 0.5 else r.randrange(count)] = r.choice(FAULTY)(r, about)
    return found


def some_count(r, about):
    """1 to 6 of most jobs; of small ones, some at and past the largest number; some none."""
    most = len(about["y"]) * (1 if about["family"] not in kinds.FREE else 20) <= 12 and about.get("n_agq", 1) < 2
    if most and r.random() < 0.3:
        return r.choice([63, 64, 64, 65, 66, 200])
    return 0 if r.random() < 0.01 else r.randint(1, 6)


def hidden(r, about):
    """The job, in some inputs with an own y that no fit takes: it is not looked at."""
    if r.random() < 0.85:
        return about
    values = r.choice([["nan", "inf", 0.5], [-1.0, 2.0]])
    return {**about, "y": [r.choice(values) for _ in about["y"]]}


def odd_bytes(r, about):
    return bytes(r.randrange(256) for _ in range(r.randint(1, 8 * len(about["y"]) - 1))) if r.random() < 0.04 else b""


def random_inputs(seed, count, kind=None):
    """(name, bytes) of `count` inputs; input i of a seed is the same whatever the count."""
    for i in range(count):
        r = random.Random(f"many/{seed}/{i}")
        chosen = kinds.named_kinds()[kind] if kind else r.choices(list(kinds.KINDS), list(kinds.KINDS.values()))[0]
        about = kinds.versioned(r, kinds.spared(chosen(r)))
        responses = some_responses(r, about, some_count(r, about))
        yield f"many-{chosen.__name__}-{seed}-{i}", packed(job_bytes(hidden(r, about)), responses, odd_bytes(r, about))


# ---- fixed inputs

def size_of(job):
    """n of a job that can be read, else 1."""
    try:
        return parse(job).n
    except Refused:
        return 1


def framed():
    """Lengths that are not the job's, and every way to cut a small input short."""
    whole = packed(job_bytes(damage.CASE_J), [[2.0], [3.0]])
    for length in range(len(whole)):
        yield f"frame-cut-{length}", whole[:length]
    for size in (0, 1, 43, 45, 52, 60, 61, 100, 65536, 65537, 1 << 24):
        yield f"frame-length-{size}", min(size, (1 << 24) - 1).to_bytes(3, "big") + whole[3:]
    for length in (65536, 65537, 65538, 70000):
        yield f"frame-long-{length}", packed(bytes([0x15]) * length, [[2.0]])
        yield f"frame-long-{length}-short", packed(bytes([0x15]) * length, [])[:-1]


def counted():
    """Every number of responses around 0 and 64, with and without bytes that are none."""
    for name, about, ys in (("J", {**damage.CASE_J, "limit": 30}, [2.0]), ("two", damage.TWO_BLOCKS_SECOND, [0.25, 1.0, 0.5])):
        for count in (0, 1, 2, 63, 64, 65, 66, 129, 1000):
            for odd in (0, 1, 8 * len(ys) - 1):
                yield f"count-{name}-{count}-{odd}", packed(job_bytes(about), [ys] * count, b"\x3f" * odd)


def faults(about):
    """Faults of the table, each with what it makes of a job and of the third response; 3 and 9 can be of a response alone."""
    beyond = [[[len(about["y"]), 1.0]], *about["zt"][1:]]
    yield "6", {"zt": beyond}, None
    yield "3-theta", {"theta": [*about["theta"][:-1], "inf"]}, None
    yield "3-weights", {"weights": ["nan", *about["weights"][1:]]}, None
    yield "3-response", {}, "nan"
    yield "4", {"link": "sqrt"}, None
    yield "probit", {"link": "probit"}, None
    yield "9", {}, 1.5
    yield "27", {"version": 2, "start": "trials", "weights": [-1.0, *about["weights"][1:]]}, None


def two_faults():
    """Faults of the table, one or two at once, with a number of responses that is none, too many, or odd; the own y is never sound."""
    about = {**damage.TWO_BLOCKS, "y": ["nan", 7.0, -1.0]}
    for one, change, wrong in faults(about):
        for two, other, worse in faults(about):
            value = worse if wrong is None else wrong
            ys = [[0.0, 1.0, 0.5], [0.5, 0.5, 0.25], [0.25, 0.75, 0.5 if value is None else value]]
            job = job_bytes({**about, **change, **other})
            for count, odd in ((3, b""), (3, b"\0"), (0, b""), (0, b"\0"), (65, b""), (65, b"\0")):
                yield f"fault-{one}-{two}-{count}-{len(odd)}", packed(job, (ys * 22)[:count], odd)


def placed():
    """A response of 64 that is not finite or out of range, in each of some places; and one of each, in both orders."""
    job, good = job_bytes({**damage.TWO_BLOCKS, "limit": 2}), [0.25, 1.0, 0.5]
    for one, two in (("nan", 1.5), (1.5, "inf")):
        yield f"place-both-{one}", packed(job, [good, [0.25, one, 0.5], good, [0.25, two, 0.5]])
    for at in (0, 1, 31, 62, 63):
        for value in ("nan", "inf", 1.02, -5e-324):
            yield f"place-{at}-{value}", packed(job, [[0.25, 1.0, value] if i == at else good for i in range(64)])


def behind_damaged():
    """Every damaged job, with two responses behind it."""
    for name, job in damage.damaged_jobs():
        if len(job) <= 4000 or name.startswith("full"):
            yield f"behind-{name}", packed(job, [[0.5] * size_of(job)] * 2)


def behind_largest():
    """Jobs at each of the largest sizes, of a family and link in turn, with their own responses and these in another order; and 64 responses of 512 numbers."""
    for turn, name in enumerate(corners.CORNERS):
        pair = kinds.PAIRS[turn % len(kinds.PAIRS)]
        about = corners.corner(name, pair)
        yield f"behind-corner-{name}-{'-'.join(pair)}", packed(job_bytes(about), [about["y"], about["y"][::-1]])
    for pair in kinds.BASE[:3:2]:
        about = corners.corner("columns", pair)
        yield f"sixty-four-{'-'.join(pair)}", packed(job_bytes(about), [about["y"][i:] + about["y"][:i] for i in range(64)])


def fixed_inputs():
    for made in (framed, counted, two_faults, placed, behind_damaged, behind_largest):
        yield from made()
