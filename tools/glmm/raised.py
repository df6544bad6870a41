"""Jobs with higher limits of iterations (document 02, P13): the limits to which one is raised, what must hold of two answers to the same call, and the classes that a
comparison must have met."""
import random
from classes import STARTS, start_of
from damage import with_field
from form import NOT_GIVEN
from reader import Refused, divided, parse

ENDS = ["0", "10", "11", "12"]
COUNTS = ["fits", "solves", "tries", "points", "eta", "mean", "pwrss", "ok"]
HALVING = ["squares", "overshot", "halved", "reaching", "far"]
LOWER = [0, 1, 1, 2, 2, 3, 4, 5, 6, 8, 12, 20, 50, 99, 100, 101]
MOST = 1000
INVERSE = 5


def counts_as(limit, link):
    """The iterations that a limit of a job allows: 'not given' is 100, with the inverse link 1000."""
    return limit if limit != NOT_GIVEN else MOST if link == INVERSE else 100


def alike(link, low, high):
    return counts_as(low, link) == counts_as(high, link)


def limited(data, limit, many=False):
    """The job, or the input of `fitmany`, with another limit."""
    return with_field(data, 38 + 24 * many, 10, limit)


def limits_of(r, data, many=False):
    """Limits from the lowest on, as the job allows iterations by them: some low ones, one between, the job's own, 'not given', what that counts as, and 1000; None where
    there is no job to be raised."""
    try:
        job = parse(divided(data)[0] if many else data)
    except Refused:
        return None
    own = NOT_GIVEN if job.limit is None else job.limit
    found = {*r.sample(LOWER, 3), r.randint(7, MOST), own, NOT_GIVEN, counts_as(NOT_GIVEN, job.link), MOST}
    return sorted(found, key=lambda limit: (counts_as(limit, job.link), limit))


def link_of(data, many=False):
    return parse(divided(data)[0] if many else data).link


def chosen_limits(seed, name, data, many=False):
    return limits_of(random.Random(f"limits/{seed}/{name}"), data, many)


def parts(text):
    """What is printed of each response; one part where that is no matter of responses."""
    if not text.startswith(b"response "):
        return [text]
    return [part.split(b"\n", 1)[1] for part in (b"\n" + text).split(b"\nresponse ")[1:]]


def first_line(text):
    """The pairs of an end line."""
    words = text.split(b"\n", 1)[0].decode().split()
    return dict(zip(words[::2], words[1::2]))


def fault(low, high, alike=False):
    """What is wrong with the answers to a call with a limit and with a higher one, or one that counts as the same; or None."""
    if alike:
        return "other bytes, where the limits count as the same" if low != high else None
    if len(parts(low)) != len(parts(high)):
        return "another number of answers"
    for number, (one, two) in enumerate(zip(parts(low), parts(high))):
        before, after = first_line(one), first_line(two)
        if before.get("end") != "13" and one.rstrip(b"\n") != two.rstrip(b"\n"):
            return f"answer {number} has other bytes"
        if before.get("end") == "13" and any(int(after[name]) < int(before[name]) for name in COUNTS):
            return f"answer {number} has a count that is lower: {one.decode().strip()}, {two.splitlines()[0].decode()}"
    return None


# ---- classes

TITLES = {"end, and at a higher limit": ["refused, the same", *(f"{end} to {end}" for end in ENDS), *(f"13 to {end}" for end in [*ENDS, "13"])],
          "13, and at a higher limit more": COUNTS,
          "end of the dispersion loop, and at a higher limit": ["0 to 0", "12 to 12", "13 to 0", "13 to 13", "13 in a later inner fit"],
          "raised from": ["0", "1 to 99", "100 to 999", "not given"], "raised to": ["1 to 99", "100 to 999", "1000"],
          "alike": ["100 and not given", "100 and not given: end 13", "1000 and not given, inverse link"],
          "fitted, start": STARTS, "13 to 0, start": STARTS}


def limit_class(limit, link):
    if limit == NOT_GIVEN:
        return "not given" + ", inverse link" * (link == INVERSE)
    return str(limit) if limit in (0, MOST) else "1 to 99" if limit < 100 else "100 to 999"


def pair_classes(job, one, two):
    """The classes of two answers, to one response each."""
    before, after = first_line(one), first_line(two)
    ends = f"{before['end']} to {after['end']}"
    yield "end, and at a higher limit", ends
    if before["end"] == "13":
        yield from (("13, and at a higher limit more", name) for name in COUNTS if int(after[name]) > int(before[name]))
    if job.family >= 2 and ends in TITLES["end of the dispersion loop, and at a higher limit"]:
        yield "end of the dispersion loop, and at a higher limit", ends
    if before["end"] == "13" and int(before["fits"]) > 1:
        yield "end of the dispersion loop, and at a higher limit", "13 in a later inner fit"
    yield from [("fitted, start", start_of(job))] * (ends == "0 to 0") + [("13 to 0, start", start_of(job))] * (ends == "13 to 0")


def classes_of(data, many, limits, texts):
    """The classes of a job at two limits, the second higher, and of its answers."""
    job = parse(divided(data)[0] if many else data)
    if texts[0].startswith(b"refused"):
        yield "end, and at a higher limit", "refused, the same"
        return
    low, high = (limit_class(limit, job.link) for limit in limits)
    if alike(job.link, *limits):
        name = f"{limits[0]} and {high}"
        yield from [("alike", name)] + [("alike", f"{name}: end 13")] * (any(part.startswith(b"end 13 ") for part in parts(texts[0])) and limits[0] == 100)
        return
    yield from [("raised from", low)] * (low in TITLES["raised from"]) + [("raised to", high)] * (high in TITLES["raised to"])
    for one, two in zip(*map(parts, texts)):
        yield from pair_classes(job, one, two)
