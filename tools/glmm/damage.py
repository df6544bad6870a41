"""Damaged jobs: a list that depends on nothing but this file. Each has the name of what was done to it."""
import random
from form import head_length, job_bytes
from kinds import exact

CASE_J = {"family": "poisson", "link": "log", "limit": 0, "blocks": [{"m": 1, "k": 1}], "theta": [1], "y": [2], "x": [[1]], "zt": [[[0, 1]]]}
TWO_BLOCKS = {"family": "binomial", "link": "logit", "n_agq": 3, "limit": None, "blocks": [{"m": 2, "k": 1}, {"m": 1, "k": 2}], "theta": [0.5, 1.0, 0.25, 0.75],
              "y": [0.0, 1.0, 0.5], "weights": [1.0, 2.0, 3.0], "offset": [0.0, 0.125, -0.25], "x": [[1.0, 0.5], [1.0, -0.5], [1.0, 0.25]],
              "zt": [[[0, 1.0], [2, 1.0]], [[1, 1.0]], [[0, 1.0], [1, 1.0], [2, 1.0]], [[0, 0.5], [2, -0.5]]]}
CASE_J_SECOND = {**CASE_J, "version": 2}
TWO_BLOCKS_SECOND = {**TWO_BLOCKS, "version": 2, "start": "trials"}
NOT_FINITE = ["7FF0000000000000", "FFF0000000000000", "7FF8000000000000", "7FF0000000000001", "FFFFFFFFFFFFFFFF"]
HEADER = [("version", 0, 4), ("family", 4, 2), ("link", 6, 3), ("weighted", 9, 1), ("shifted", 10, 1), ("n_agq", 11, 5), ("n", 16, 13), ("p", 29, 5), ("blocks", 34, 4),
          ("limit", 38, 10)]


def with_field(data, at, width, value):
    """The job with `width` bits from bit `at` set to a number."""
    bits, whole = 8 * len(data), int.from_bytes(data, "big")
    down = bits - at - width
    return (whole & ~((1 << width) - 1 << down) | value << down).to_bytes(len(data), "big")


def cuts(name, data):
    for length in range(len(data)):
        yield f"{name}-cut-{length}", data[:length]


def surplus(name, data):
    for extra in (b"\0", b"\xff", b"\0" * 9, b"\1" * 1000):
        yield f"{name}-surplus-{len(extra)}-{extra[0]}", data + extra
    for length in (65535, 65536, 65537, 70000, 200000):
        yield f"{name}-long-{length}", data + b"\0" * (length - len(data))


def fields(name, data):
    """Each field of the header at its edges and beyond."""
    values = {"version": range(16), "family": range(4), "link": range(8), "weighted": range(2), "shifted": range(2), "n_agq": (0, 1, 2, 31),
              "n": (0, 1, 2, 3, 4, 512, 513, 4096, 8191), "p": (0, 1, 2, 3, 16, 17, 31), "blocks": range(16), "limit": (0, 1, 999, 1000, 1001, 1002, 1010, 1021, 1022, 1023)}
    for field, at, width in HEADER:
        for value in values[field]:
            yield f"{name}-{field}-{value}", with_field(data, at, width, value)


def pairs(name, data):
    """Every family with every link."""
    for family in range(4):
        for link in range(8):
            yield f"{name}-pair-{family}-{link}", with_field(with_field(data, 4, 2, family), 6, 3, link)


def row_places(about):
    """Bytes where the count of a row of Z' stands, and where an entry's column does."""
    at, counts, columns = len(job_bytes({**about, "zt": []})), [], []
    for row in about["zt"]:
        counts.append(at)
        columns += [at + 2 + 10 * e for e in range(len(row))]
        at += 2 + 10 * len(row)
    return counts, columns


def two_byte_places(about):
    """Bytes where a field of two bytes begins, with the number of its spare bits: blocks, counts of rows, columns."""
    counts, columns = row_places(about)
    return [(head_length(about) + 2 * i, 5) for i in range(len(about["blocks"]))] + [(at, 3) for at in sorted(counts + columns)]


def spare_bits(name, about):
    data = job_bytes(about)
    if head_length(about) == 7:
        for bit in range(49, 56):
            yield f"{name}-spare-6-{bit}", with_field(data, bit, 1, 1)
        yield f"{name}-spare-6-cut", with_field(data, 49, 7, 1)[:7]
        yield f"{name}-start", with_field(data, 48, 1, 1)
    for at, spare in two_byte_places(about):
        for bit in range(spare):
            yield f"{name}-spare-{at}-{bit}", with_field(data, 8 * at + 15 - bit, 1, 1)
        yield f"{name}-spare-{at}-cut", with_field(data, 8 * at + 16 - spare, spare, 1)[:at + 2]
        yield f"{name}-spare-{at}-short", with_field(data, 8 * at + 16 - spare, spare, 1)[:at + 1]


def counts_and_columns(name, about):
    """Counts of rows and columns that are too high, and columns that do not rise."""
    data = job_bytes(about)
    for at, _ in two_byte_places(about)[len(about["blocks"]):]:
        for value in (0, 1, 2, 3, 100, 8191):
            yield f"{name}-index-{at}-{value}", with_field(data, 8 * at, 13, value)


def block_sizes(name, about):
    data = job_bytes(about)
    for i in range(len(about["blocks"])):
        for m in (0, 1, 2, 3, 31, 32, 33, 127):
            yield f"{name}-m-{i}-{m}", with_field(data, 8 * (head_length(about) + 2 * i), 7, m)
        for k in (0, 1, 2, 8, 9, 15):
            yield f"{name}-k-{i}-{k}", with_field(data, 8 * (head_length(about) + 2 * i) + 7, 4, k)


def double_places(about):
    """Bytes where a double begins."""
    start, rows = head_length(about) + 2 * len(about["blocks"]), len(job_bytes({**about, "zt": []}))
    return [*range(start, rows, 8), *(at + 2 for at in row_places(about)[1])]


def not_finite(name, about):
    """NaN and infinity in each place."""
    data = job_bytes(about)
    for at in double_places(about):
        for pattern in NOT_FINITE:
            yield f"{name}-number-{at}-{pattern}", data[:at] + bytes.fromhex(pattern) + data[at + 8:]


def two_faults(name, about):
    """Two faults at once: which is first?"""
    data = job_bytes(about)
    block = 8 * head_length(about)
    faults = {"version": (0, 4, 3), "link": (6, 3, 7), "limit": (38, 10, 1001), "n": (16, 13, 0), "k": (block + 7, 4, 9), "spare": (block + 11, 5, 1), "pair": (4, 2, 3)}
    if block == 56:
        faults["zeros"] = (49, 7, 1)
    for one in faults:
        for two in faults:
            if one < two:
                both = with_field(with_field(data, *faults[one]), *faults[two])
                yield f"{name}-both-{one}-{two}", both
                yield f"{name}-both-{one}-{two}-surplus", both + b"\0"
                yield f"{name}-both-{one}-{two}-cut", both[:-1]
        yield f"{name}-{one}-cut-7", with_field(data, *faults[one])[:7]
        yield f"{name}-{one}-long", with_field(data, *faults[one]) + b"\0" * 65536


def faulty_lists(about):
    """An infinite number in each of the lists."""
    for name in ("theta", "y", "weights", "offset"):
        if about.get(name):
            yield name, {**about, name: [*about[name][:-1], "inf"]}
    yield "x", {**about, "x": [*about["x"][:-1], [*about["x"][-1][:-1], "inf"]]}
    yield "zt", {**about, "zt": [*about["zt"][:-1], [*about["zt"][-1][:-1], [about["zt"][-1][-1][0], "inf"]]]}


def two_of_the_table(name, about):
    """Two faults of the table at once, of 6, 3, 4, 9 and 27: which is first? Probit and Gamma are none of them, but were once."""
    pairs = {"4": ("binomial", "sqrt"), "probit": ("binomial", "probit"), "gamma": ("gamma", "log"), "4-probit": ("poisson", "probit"), "4-gamma": ("gamma", "probit")}
    column = {**about, "zt": [[[len(about["y"]), about["zt"][0][0][1]], *about["zt"][0][1:]], *about["zt"][1:]]}
    for pair, (family, link) in pairs.items():
        named = {"family": family, "link": link}
        yield f"{name}-table-{pair}", job_bytes({**about, **named})
        yield f"{name}-table-6-{pair}", job_bytes({**column, **named})
        for place, faulty in faulty_lists(about):
            yield f"{name}-table-3-{pair}-{place}", job_bytes({**faulty, **named})
    for place, faulty in faulty_lists(column):
        yield f"{name}-table-6-3-{place}", job_bytes(faulty)


def responses(name, about):
    """Each response in turn at the ends of the ranges, next to them, and below and above; with each family, and with a fault that comes first."""
    column = {"zt": [[[len(about["y"]), about["zt"][0][0][1]], *about["zt"][0][1:]], *about["zt"][1:]]}
    pairs = {"binomial": "logit", "poisson": "log", "gaussian": "identity", "gamma": "log"}
    both = [*pairs.items(), ("binomial", "probit")]
    for at in range(len(about["y"])):
        for value in (0.0, -0.0, 5e-324, -5e-324, 1.0, 0.9999999999999999, 1.0000000000000002, 1.02, -1.0):
            other = {**about, "y": [value if i == at else 0.5 for i in range(len(about["y"]))]}
            for family, link in both:
                yield f"{name}-response-{at}-{value}-{family}-{link}", job_bytes({**other, "family": family, "link": link})
    for family in ("binomial", "poisson", "gamma"):
        low = {**about, "family": family, "link": pairs[family], "y": [-1.0, *about["y"][1:]]}
        yield f"{name}-table-6-9-{family}", job_bytes({**low, **column})
        yield f"{name}-table-4-9-{family}", job_bytes({**low, "link": "inverse" if family != "gamma" else "sqrt"})
        for place, faulty in faulty_lists(low):
            yield f"{name}-table-3-9-{family}-{place}", job_bytes(faulty)
    yield f"{name}-table-probit-9", job_bytes({**about, "family": "binomial", "link": "probit", "y": [2.0, *about["y"][1:]]})


def starts(name, about):
    """R's start with each family; with a weight in each place that is or is not below 0; and with a fault that comes first."""
    asked = {**about, "version": 2, "start": "trials", "family": "binomial", "link": "logit", "y": [0.5 for _ in about["y"]]}
    for family, link in (("binomial", "cloglog"), ("binomial", "probit"), ("poisson", "log"), ("gaussian", "identity"), ("gamma", "log")):
        for weights in (None, [2.0 for _ in about["y"]], [-1.0 for _ in about["y"]]):
            for start in ("usual", "trials"):
                yield f"{name}-start-{start}-{family}-{link}-{weights and weights[0]}", job_bytes({**asked, "family": family, "link": link, "weights": weights, "start": start})
    for at in range(len(about["y"])):
        for weight in (0.0, -0.0, 5e-324, -5e-324, -1.0):
            yield f"{name}-start-weight-{at}-{weight}", job_bytes({**asked, "weights": [weight if i == at else 1.0 for i in range(len(about["y"]))]})
    low = {**asked, "weights": [-1.0 for _ in about["y"]]}
    column = {"zt": [[[len(about["y"]), about["zt"][0][0][1]], *about["zt"][0][1:]], *about["zt"][1:]]}
    for fault, other in (("6", column), ("4", {"link": "sqrt"}), ("probit", {"link": "probit"}), ("9", {"y": [1.5, *asked["y"][1:]]})):
        yield f"{name}-table-{fault}-27", job_bytes({**low, **other})
    for place, faulty in faulty_lists(low):
        yield f"{name}-table-3-27-{place}", job_bytes(faulty)


def all_blocks():
    """Fifteen blocks; eight and nine of them; q of 32 and 33."""
    for count in (8, 9, 15):
        blocks = [{"m": 1, "k": 1}] * count
        yield f"blocks-{count}", job_bytes({**CASE_J, "blocks": blocks, "theta": [1] * count, "zt": [[[0, 1]]] * count})
        yield f"blocks-{count}-spare", with_field(job_bytes({**CASE_J, "blocks": blocks, "theta": [1] * count, "zt": []}), 8 * (6 + 2 * count) - 1, 1, 1)
        yield f"blocks-{count}-cut", job_bytes({**CASE_J, "blocks": blocks})[:6 + 2 * count - 1]
    for m, k in ((32, 1), (33, 1), (4, 8), (16, 2), (17, 2), (5, 8)):
        effects = m * k
        yield f"effects-{m}-{k}", job_bytes({**CASE_J, "blocks": [{"m": m, "k": k}], "theta": [1] * (k * (k + 1) // 2), "zt": [[[0, 1]]] * effects, "limit": 5})


def observations():
    """512 and 513 observations, 16 and 17 columns."""
    for n, p in ((512, 1), (513, 1), (40, 16), (40, 17), (512, 14), (512, 15)):
        x = [[1.0 if j == i % p else 0.125 for j in range(p)] for i in range(n)]
        yield f"sizes-{n}-{p}", job_bytes({**CASE_J, "limit": 4, "y": [float(i % 5) for i in range(n)], "x": x, "zt": [[[i, 1.0] for i in range(0, n, 3)]]})


def full_jobs():
    """65,536 bytes, and with one byte more."""
    about = exact(random.Random("full"))
    data = job_bytes(about)
    yield f"full-{len(data)}", data
    yield f"full-{len(data)}-more", data + b"\0" * (65537 - len(data))


def damaged_jobs():
    """(name, bytes) of every damaged job, the four sound ones first."""
    yield "caseJ", job_bytes(CASE_J)
    yield "two", job_bytes(TWO_BLOCKS)
    yield "caseJ-second", job_bytes(CASE_J_SECOND)
    yield "two-second", job_bytes(TWO_BLOCKS_SECOND)
    for name, about in (("caseJ", CASE_J), ("two", TWO_BLOCKS), ("caseJ-second", CASE_J_SECOND), ("two-second", TWO_BLOCKS_SECOND)):
        data = job_bytes(about)
        for family in (cuts, surplus, fields, pairs):
            yield from family(name, data)
        for family in (spare_bits, counts_and_columns, block_sizes, not_finite, two_faults, two_of_the_table, responses, starts):
            yield from family(name, about)
    yield from all_blocks()
    yield from observations()
    yield from full_jobs()
