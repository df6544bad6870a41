"""Classes of jobs with their answers. A class is a title and a name, or a title with a row and a column. `classes_of` gives those of one job; CLAIMED has every
class that a comparison must have met, IMPOSSIBLE those that no job can be in, with the reason; `missing` and `surprises` hold what was met to both."""
import math, struct
from form import FAMILIES, LINKS
from families import trials_mean
from kinds import FREE, PAIRS
from reader import VALID, in_range, parse

ENDS = [f"end {number}" for number in (0, 10, 11, 12, 13)]
RULES = ["one effect", "product", "joint"]
LISTS = ["theta", "y", "weights", "offset", "X"]
NAMES = [f"{family} {link}" for family, link in PAIRS]
MOST_ENTRIES = 6233  # of 195 observations, one column and 32 effects in 65,536 bytes


def name_of(pair):
    return f"{FAMILIES[pair[0]]} {LINKS[pair[1]]}"


# ---- refusals: what was wrong, where one thing is

SIZES = ["n is 0", "n above 512", "p is 0", "p above 16", "no block", "more than 8 blocks", "m is 0", "k is 0", "k above 8", "q above 32"]
PLACES = ["header", "block", *LISTS, "count of a row", "column", "value"]
CAUSES = [*(("1", size) for size in SIZES), ("6", "a column not below n"), ("6", "a column not above the one before"),
          *(("3", f"{kind} in {place}") for place in [*LISTS, "Z'"] for kind in ("NaN", "infinity")),
          *(("4", name_of((f, l))) for f in range(4) for l in range(7) if (f, l) not in VALID),
          ("9", "binomial below 0"), ("9", "binomial above 1"), ("9", "poisson below 0"), ("9", "gamma below 0"), ("9", "gamma at 0"),
          *(("20", place) for place in PLACES), ("21", "version 0"), ("21", "version 3 to 15"), *(("22", place) for place in ("header", "block", "count of a row", "column")),
          ("23", "one byte"), ("23", "more bytes"), ("24", "link 7"), ("24", "limit 1001 to 1022"), ("25", "65,537 bytes"), ("25", "more bytes"), ("27", "not binomial"), ("27", "a weight below 0")]


def field(data, at, width):
    return int.from_bytes(data, "big") >> 8 * len(data) - at - width & (1 << width) - 1


def head_length(data):
    """How many bytes the header has, by the version."""
    return 7 if data[:1] and data[0] >> 4 == 2 else 6


def sizes(data):
    """n, p and the blocks of a job whose header and blocks are whole."""
    head = data[:head_length(data) + 2 * field(data[:6], 34, 4)]
    return field(head, 16, 13), field(head, 29, 5), [(field(head, at, 7), field(head, at + 7, 4)) for at in range(8 * head_length(data), 8 * len(head), 16)]


def wrong_sizes(data):
    n, p, blocks = sizes(data)
    ks = [k for _, k in blocks]
    tests = [n == 0, n > 512, p == 0, p > 16, not blocks, len(blocks) > 8, any(m == 0 for m, _ in blocks), 0 in ks, max(ks, default=0) > 8,
             sum(m * k for m, k in blocks) > 32]
    return [size for size, test in zip(SIZES, tests) if test]


def lengths(data):
    """The number of doubles of each list, as the header and the blocks say."""
    n, p, blocks = sizes(data)
    return [sum(k * (k + 1) // 2 for _, k in blocks), n, n * field(data[:6], 9, 1), n * field(data[:6], 10, 1), n * p]


def fields(data):
    """Each field with the byte behind it, as far as a row's count can be read."""
    at = head_length(data)
    yield "header", at
    at += 2 * field(data[:6], 34, 4) if len(data) >= at else 0
    yield "block", at
    if len(data) < at:
        return
    for name, length in zip(LISTS, lengths(data)):
        at += 8 * length
        yield name, at
    while True:
        yield "count of a row", at + 2
        count = int.from_bytes(data[at:at + 2], "big") >> 3
        for start in range(at + 2, at + 2 + 10 * count, 10):
            yield "column", start + 2
            yield "value", start + 10
        at += 2 + 10 * count


def place_of(data, byte):
    """The field in which a byte stands."""
    return next((name for name, behind in fields(data) if byte < behind), "no place")


def wrong_columns(job):
    rows = [[column for column, _ in row] for row in job.zt]
    high = any(column >= job.n for row in rows for column in row)
    falls = any(a >= b for row in rows for a, b in zip(row, row[1:]))
    return ["a column not below n"] * high + ["a column not above the one before"] * falls


def wrong_numbers(job):
    lists = [job.theta, job.y, job.weights or [], job.offset or [], [v for row in job.x for v in row], [v for row in job.zt for _, v in row]]
    return [f"{'NaN' if math.isnan(v) else 'infinity'} in {place}" for place, values in zip([*LISTS, "Z'"], lists) for v in values if not math.isfinite(v)]


def wrong_responses(job):
    names = {0: lambda y: "below 0" if y < 0.0 else "above 1", 1: lambda y: "below 0", 3: lambda y: "below 0" if y < 0.0 else "at 0"}
    return [f"{FAMILIES[job.family]} {names[job.family](y)}" for y in job.y if not in_range(job.family, y)]


def wrong_start(job):
    return ["not binomial"] * (job.family != 0) + ["a weight below 0"] * any(w < 0.0 for w in job.weights or [])


def causes(number, byte, data):
    """What is wrong in a job that was refused with a number at a byte."""
    if number in (3, 4, 6, 9, 27):
        job = parse(data)
        return {6: wrong_columns, 3: wrong_numbers, 9: wrong_responses, 27: wrong_start}.get(number, lambda job: [name_of((job.family, job.link))])(job)
    if number == 1:
        return wrong_sizes(data)
    if number in (20, 22):
        return [place_of(data, byte)]
    return {21: lambda: ["version 0" if data[0] < 16 else "version 3 to 15"], 24: lambda: ["link 7" if byte == 0 else "limit 1001 to 1022"],
            23: lambda: ["one byte" if len(data) == byte + 1 else "more bytes"], 25: lambda: ["65,537 bytes" if len(data) == 65537 else "more bytes"]}.get(number, list)()


# ---- ends

LARGEST = ["n 512", "p 16", "q 32", "8 blocks", "k 8", "n 512 and p 14", "n 481 and p 16", f"{MOST_ENTRIES:,} entries", "65,536 bytes", "343 points a group",
           "6,561 points"]
LIMITS = ["0", "1 to 999", "1000", "not given"]
STARTS = ["version 1", "version 2, usual", "version 2, trials"]
ASKED = ["Laplace", *RULES, "declined"]
DECLINES = ["no order: product, k above 5", "no order: joint, q above 8",
            *(f"{rule}, {when}" for rule in RULES for when in ("no points", "after points", "free dispersion"))]
WHYS = [f"why {why}" for why in range(7)]
PARTS = {"eta": "refused for eta", "mean": "refused for a mean", "pwrss": "refused for PWRSS", "ok": "accepted"}
FLAGS = ["flag 0, Laplace", "flag 0, quadrature", "flag 1, Laplace", "flag 1, quadrature"]
DRESSES = ["no weights, no offset", "weights, no offset", "no weights, offset", "weights, offset"]
GAMMA = ["a Gamma response above 0 and below E", "a Gamma mean not above 0", "Gamma weights that sum to less than 1", "a Gamma phi near E"]
PROBIT = ["a probit mean at E", "a probit mean at 1 - E", "a probit density below E", "a probit start in a tail of the quantile", "a probit start past E or 1 - E"]
WAYS = ["steps halved", "a weight not above 0", "a response at an end of its range", "deviance NaN", "deviance infinite", "trials without weights", "no trial", *GAMMA, *PROBIT]


def rule_of(job):
    return "joint" if len(job.blocks) > 1 else "one effect" if job.blocks[0][1] == 1 else "product"


def no_order(job):
    """Why no order is left for a wish above 1, or None."""
    if len(job.blocks) == 1:
        return "product, k above 5" if job.blocks[0][1] > 5 else None
    return "joint, q above 8" if job.q > 8 else None


def integration(job, said):
    """What became of a wish: Laplace, a rule at an order, or a decline. Points of a free dispersion may be those of an earlier inner fit."""
    if job.n_agq < 2:
        return "Laplace", "not asked for"
    if said["order"] > 1:
        return rule_of(job), f"order {said['order']}"
    if no_order(job):
        return "declined", "no order: " + no_order(job)
    return "declined", f"{rule_of(job)}, " + ("no points" if said["points"] == 0 else "after points" if job.family < 2 else "free dispersion")


def largest(job, data, order):
    """Sizes and points that no job can pass, as far as this one has them."""
    ks, size, rule = [k for _, k in job.blocks], (job.n, job.p), rule_of(job)
    tests = [job.n == 512, job.p == 16, job.q == 32, len(ks) == 8, 8 in ks, size == (512, 14), size == (481, 16), sum(map(len, job.zt)) == MOST_ENTRIES,
             len(data) == 65536, rule == "product" and order**ks[0] == 343, rule == "joint" and order**job.q == 6561]
    return [name for name, test in zip(LARGEST, tests) if test]


def limit_of(job):
    return "not given" if job.limit is None else str(job.limit) if job.limit in (0, 1000) else "1 to 999"


def start_of(job):
    return STARTS[job.version - 1 + job.start]


def on_the_way(job, said, deviance):
    """What else can happen in a fit that ends with 0."""
    yield from ["steps halved"] * (said["tries"] > said["solves"])
    yield from ["a weight not above 0"] * (min(job.weights or [1.0]) <= 0)
    yield from ["a response at an end of its range"] * (job.family < 2 and (0.0 in job.y or job.family == 0 and 1.0 in job.y))
    yield from ["trials without weights"] * (job.start == 1 and not job.weights) + ["no trial"] * (job.start == 1 and 0.0 in (job.weights or []))
    if deviance[:3] in ("7FF", "FFF"):
        yield "deviance NaN" if deviance[3:].strip("0") else "deviance infinite"


def printed(lines, name):
    """The numbers of the lines that begin with a name."""
    return [struct.unpack(">d", bytes.fromhex(line.split()[2]))[0] for line in lines if line.startswith(name)]


def gamma_ways(job, lines):
    """Of a fitted Gamma job what its floors change: those at E of responses, of means and of the dispersion, by the lines that were printed, and that of the weights' sum at 1."""
    (phi,), means = (printed(lines, name) for name in ("phi ", "mu "))
    tests = [any(0.0 < y < 2.0**-52 for y in job.y), min(means) <= 0.0, job.weights and 0.0 < sum(job.weights) < 1.0, phi < 2.0**-51]
    return [name for name, test in zip(GAMMA, tests) if test]


def probit_ways(job, lines):
    """Of a fitted probit job what its clamps and floor change, by the lines that were printed, and whether a start lies where the quantile is not the middle's."""
    etas, means = (printed(lines, name) for name in ("eta ", "mu "))
    starts = [trials_mean(w, y) for w, y in zip(job.weights or [1.0] * job.n, job.y)] if job.start else []
    tests = [min(means) == 2.0**-52, max(means) == 1.0 - 2.0**-52, max(map(abs, etas)) >= 8.3815, any(not 0.1353 < mean < 0.8647 for mean in starts),
             any(not 2.0**-52 <= mean <= 1.0 - 2.0**-52 for mean in starts)]
    return [name for name, test in zip(PROBIT, tests) if test]


def fitted(job, data, said, lines):
    pair = name_of((job.family, job.link))
    kind, detail = integration(job, said)
    yield "quadrature", (pair, kind)
    yield "quadrature by start", (start_of(job), kind)
    yield "order", (kind, detail)
    yield "why", (rule_of(job), f"why {said['why']}")
    yield "dispersion", (pair, f"flag {said['disp']}, " + ("Laplace" if said["order"] == 1 else "quadrature"))
    yield "lists", (pair, ("weights" if job.weights else "no weights") + (", offset" if job.offset else ", no offset"))
    for name in largest(job, data, said["order"]):
        yield "largest", (pair, name)
    own = gamma_ways if FAMILIES[job.family] == "gamma" else probit_ways if LINKS[job.link] == "probit" else None
    for name in [*on_the_way(job, said, lines[0].split()[-1]), *(own(job, lines) if own else [])]:
        yield "on the way", name


def classes_of(data, text):
    """The classes of a job and what was printed for it."""
    words = text.split("\n")[0].split() or ["nothing"]
    yield "ending", " ".join(words[:2])
    if words[0] == "refused":
        found = set(causes(int(words[1]), int(words[3]), data)) or {"no cause found"}
        if len(found) == 1:
            yield "refused", (words[1], found.pop())
    if words[0] != "end":
        return
    said, job = dict(zip(words[::2], map(int, words[1::2]))), parse(data)
    pair = name_of((job.family, job.link))
    yield "family and link", (pair, f"end {said['end']}")
    yield "limit", (limit_of(job), f"end {said['end']}")
    yield "start", (start_of(job), f"end {said['end']}")
    for part in PARTS:
        if said[part] > 0:
            yield "tries", (PARTS[part], f"end {said['end']}")
    if said["end"] != 0:
        yield "inner fits", (f"end {said['end']}", "in the first" if said["fits"] == 1 else "in a later one")
    else:
        yield from fitted(job, data, said, text.split("\n")[1:])


# ---- what must have been met, and what cannot be

ROWS_AND_COLUMNS = {
    "family and link": (NAMES, ENDS), "quadrature": (NAMES, ASKED), "why": (RULES, WHYS), "dispersion": (NAMES, FLAGS), "lists": (NAMES, DRESSES),
    "largest": (NAMES, LARGEST), "limit": (LIMITS, ENDS), "start": (STARTS, ENDS), "quadrature by start": (STARTS, ASKED), "tries": ([*PARTS.values()], ENDS), "inner fits": (ENDS[1:], ["in the first", "in a later one"])}
NAMED = {"ending": [*ENDS, *(f"refused {number}" for number in [*range(1, 8), 9, *range(20, 26), 27])], "refused": CAUSES,
         "order": [("Laplace", "not asked for"), *((rule, f"order {order}") for rule in RULES for order in (3, 5, 7, 9, 11)),
                   *(("declined", cause) for cause in DECLINES)],
         "on the way": WAYS}
DIAGONAL = "A_gg is 1 and a sum not below 0, or not finite and then end 10"
IMPOSSIBLE = {
    ("ending", "refused 2"): "a job's lists are as long as its sizes say", ("ending", "refused 7"): "fitjob lends enough",
    ("ending", "refused 5"): "every link is carried, and the number is free (document 02, P8)",
    ("order", ("declined", "one effect, no points")): DIAGONAL + ": the first group always has its points",
    ("why", ("one effect", "why 4")): DIAGONAL,
    **{("why", (rule, "why 2")): "the number of effects is limited with several blocks alone" for rule in RULES[:2]},
    ("why", ("one effect", "why 3")): "orders of one dimension have no cap", ("why", ("joint", "why 3")): "8 effects at order 3 have 6,561 points, within the cap",
    ("why", ("one effect", "why 5")): "no inverse is formed", **{("why", (rule, "why 4")): "the diagonal is looked at with one effect a group alone" for rule in RULES[1:]},
    **{("dispersion", (name, flag)): "the dispersion is fixed" for name in NAMES if name.split()[0] not in FREE for flag in FLAGS[:2]},
    **{("limit", ("0", end)): "no iteration is done" for end in ENDS[:4]}}
ALL = [*((title, (row, column)) for title, (rows, columns) in ROWS_AND_COLUMNS.items() for row in rows for column in columns),
       *((title, name) for title, names in NAMED.items() for name in names)]
CLAIMED = [name for name in ALL if name not in IMPOSSIBLE]


def line(cells):
    return "| " + " | ".join(map(str, cells)) + " |"


def told(counts, name):
    return "-" if name in IMPOSSIBLE and not counts[name] else counts[name]


def tables(counts):
    """The lines of a table for each title; '-' where no job can be."""
    for title, names in NAMED.items():
        yield from ["", line([title, "jobs"]), "|---|---|"]
        yield from (line([name if isinstance(name, str) else ": ".join(name), told(counts, (title, name))]) for name in names)
    for title, (rows, columns) in ROWS_AND_COLUMNS.items():
        yield from ["", line([title, *columns]), "|---" * (1 + len(columns)) + "|"]
        yield from (line([row, *(told(counts, (title, (row, column))) for column in columns)]) for row in rows)


def missing(counts):
    """What is claimed and was not met."""
    return [f"NOT REACHED {name}" for name in CLAIMED if not counts[name]]


def surprises(counts):
    """What was met and is not claimed: a class that is said to be impossible, or is not named at all."""
    said = [f"IMPOSSIBLE, but met: {name}: {why}" for name, why in IMPOSSIBLE.items() if counts[name]]
    return said + [f"UNKNOWN {name}" for name in counts if name not in ALL]
