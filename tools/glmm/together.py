"""What `fitmany` must print by what `fitjob` prints for the job with each response in the place of y (document 02, P1: the single calls made one by one, in order); and
the classes of inputs with their answers that a comparison must have met."""
import struct
from classes import NAMES, STARTS, name_of, start_of
from reader import MOST_RESPONSES, TABLE, Refused, check_table, divided, in_range, parse

READING = [1, 20, 21, 22, 23, 24, 25]  # what is told of the job before anything behind it is looked at


def y_place(job):
    """The byte of a job that can be read at which y begins."""
    read = parse(job)
    return (7 if read.version == 2 else 6) + 2 * read.count + 8 * len(read.theta)


def singles(data):
    """The job itself, and behind it the job with each whole response for its y, where there are 1 to 64 of a job that can be read."""
    job, behind = divided(data)
    try:
        step = 8 * parse(job).n
    except Refused:
        return [job]
    count = len(behind) // step
    if not 1 <= count <= MOST_RESPONSES or len(behind) % step:
        return [job]
    at = y_place(job)
    return [job, *(job[:at] + behind[i * step:(i + 1) * step] + job[at + step:] for i in range(count))]


def refusal(text):
    """The number of a text that is a refusal, else None."""
    words = text.split()
    return int(words[1]) if words[:1] == [b"refused"] else None


def together(data, texts):
    """What `fitmany` must print, by what `fitjob` printed for each of the singles."""
    job, behind = divided(data)
    if refusal(texts[0]) in READING:
        return texts[0]
    step = 8 * parse(job).n
    if not 1 <= len(behind) // step <= MOST_RESPONSES:
        return b"refused 8 at 0\n"
    if len(behind) % step:
        return b"refused 2 at 0\n"
    told = [refusal(text) for text in texts[1:]]
    first = next((number for number in TABLE if number in told), None)
    return b"refused %d at 0\n" % first if first else b"".join(b"response %d\n%s" % pair for pair in enumerate(texts[1:]))


# ---- classes

ENDS = [0, 10, 11, 12, 13]
COUNTS = ["1", "2", "3", "4", "5", "6", "63", "64", "64 of 512 numbers"]
REFUSED = list(map(str, sorted([*READING, 8, 2, *TABLE])))
CAUSES = ["8: none", "8: odd bytes alone", "8: 65", "8: more than 65", "8: 65 and odd bytes", "2: odd bytes behind 1 to 63", "2: odd bytes behind 64",
          *(f"{number}: in {place}" for number in (3, 9) for place in ("the first response alone", "the last response alone", "response 63 alone")), "3: in the design alone", "3: behind a response out of range",
          *(f"{first} before {number}" for first in (8, 2) for number in TABLE)]
BESIDE = [f"end {end} {way}" for end in ENDS[1:] for way in ("behind a fitted response", "before a fitted response", "throughout")]
OWN = ["own y not finite", "own y out of range", "own y among the responses"]
TITLES = {"response": [f"end {end}" for end in ENDS], "count": COUNTS, "beside": BESIDE, "own y": OWN, "start": STARTS, "fitted": NAMES, "refused": REFUSED, "cause": CAUSES}


def doubles(data):
    return [struct.unpack(">d", data[at:at + 8])[0] for at in range(0, len(data), 8)]


def finite(y):
    return abs(y) < float("inf")


def faulty(job, responses, number):
    """The places of the responses that are not finite, or for 9 out of range."""
    good = (lambda y: finite(y)) if number == 3 else (lambda y: in_range(job.family, y))
    return [i for i, ys in enumerate(responses) if not all(map(good, ys))]


def outside(job, responses):
    """The places of the responses that are finite and out of range."""
    return [i for i in faulty(job, responses, 9) if i not in faulty(job, responses, 3)]


def behind_of(job, behind):
    """The whole responses, and how many bytes are left over."""
    step = 8 * job.n
    return [doubles(behind[at:at + step]) for at in range(0, len(behind) // step * step, step)], len(behind) % step


def table_refusal(job, responses):
    """What the rest of the table would refuse, or None."""
    try:
        check_table(job, responses)
    except Refused as refused:
        return refused.args[0]


def count_causes(number, job, responses, odd):
    """Why the number of responses was refused with 8, or the bytes with 2; and which refusal it came before."""
    count, later = len(responses), table_refusal(job, responses)
    if number == 8:
        yield "8: " + ("odd bytes alone" if odd else "none") if count == 0 else "8: 65 and odd bytes" if count == 65 and odd else "8: 65" if count == 65 else "8: more than 65"
    else:
        yield "2: odd bytes behind " + ("64" if count == 64 else "1 to 63")
    if later:
        yield f"{number} before {later}"


def place_causes(number, job, responses):
    """Where a refusal with 3 or 9 comes from, if from one response or from the design alone."""
    places = faulty(job, responses, number)
    if number == 3 and not places:
        yield "3: in the design alone"
    if number == 3 and places and min(outside(job, responses), default=places[0]) < places[0]:
        yield "3: behind a response out of range"
    if len(places) == 1 and len(responses) > 1:
        yield from (f"{number}: in {name}" for name, at in (("the first response alone", 0), ("the last response alone", len(responses) - 1), ("response 63 alone", 63)) if places == [at])


def refused_classes(number, data):
    yield "refused", str(number)
    if number in (8, 2, 3, 9):
        front, behind = divided(data)
        job = parse(front)
        responses, odd = behind_of(job, behind)
        causes = count_causes(number, job, responses, odd) if number in (8, 2) else place_causes(number, job, responses)
        yield from (("cause", cause) for cause in causes)


def beside(ends):
    """How ends without a fit stand beside fitted responses."""
    fitted = [i for i, end in enumerate(ends) if end == 0]
    for end in set(ends) - {0}:
        places = [i for i, found in enumerate(ends) if found == end]
        ways = {"behind a fitted response": fitted and places[-1] > fitted[0], "before a fitted response": fitted and places[0] < fitted[-1], "throughout": len(places) == len(ends) > 1}
        yield from (f"end {end} {way}" for way, holds in ways.items() if holds)


def classes_of(data, text):
    """The classes of an input and what was printed for it."""
    number = refusal(text)
    if number is not None:
        yield from refused_classes(number, data)
        return
    front, behind = divided(data)
    job = parse(front)
    responses, _ = behind_of(job, behind)
    ends = [int(line.split()[1]) for line in text.split(b"\n") if line.startswith(b"end ")]
    yield from (("response", f"end {end}") for end in ends)
    yield from (("fitted", name_of((job.family, job.link))) for end in ends if end == 0)
    yield from (("start", start_of(job)) for end in ends if end == 0)
    yield from (("beside", name) for name in beside(ends))
    yield from (("count", name) for name in (str(len(ends)), f"{len(ends)} of {job.n} numbers") if name in COUNTS)
    tests = [not all(map(finite, job.y)), all(map(finite, job.y)) and not all(in_range(job.family, y) for y in job.y), job.y in responses]
    yield from (("own y", name) for name, holds in zip(OWN, tests) if holds)
