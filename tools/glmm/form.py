"""The job format of documents 01 and 02 (P10: version 2) in the writing direction, and a job as a description that can be read.

A description is a JSON object:
    family    "binomial", "poisson", "gaussian", "gamma" (or its number, 0 to 3)
    link      "logit", "probit", "cloglog", "log", "identity", "inverse", "sqrt" (or its number, 0 to 7)
    n_agq     a wish, 0 to 31; left out: 1
    limit     iterations of an inner fit, 0 to 1000; left out or null: not given
    version   1 or 2; left out: 1
    start     "usual" or "trials" (or its number, 0 or 1), in version 2 only; left out: "usual"
    blocks    a list of {"m": groups, "k": effects}
    theta     the numbers of each block's lower triangle, column by column, block after block
    y         the responses
    weights, offset   one number for each response; left out or null: absent
    x         the rows of X, each a list of p numbers
    zt        the rows of Z', each a list of [column, value]
In place of m, k and zt every block may have "group", the group of each response (any JSON value; groups are numbered as they first appear), and
"z", a row of k numbers for each response (left out: one effect, an intercept).
A number is a JSON number, or a string: "nan", "inf", "-inf", or 16 hexadecimal digits of its pattern.
For a job whose header lies, version, n, p and count (of blocks) may be given too."""
import json, math, struct

FAMILIES = ["binomial", "poisson", "gaussian", "gamma"]
LINKS = ["logit", "probit", "cloglog", "log", "identity", "inverse", "sqrt"]
STARTS = ["usual", "trials"]
NOT_GIVEN = 1023


def number_bytes(value):
    """Eight bytes, high byte first."""
    if isinstance(value, str) and len(value) == 16:
        return bytes.fromhex(value)
    return struct.pack(">d", float(value))


def number_text(value):
    """A number of a description; a NaN keeps its pattern."""
    if math.isfinite(value):
        return value
    return struct.pack(">d", value).hex().upper() if math.isnan(value) else "inf" if value > 0 else "-inf"


def packed(fields):
    """The bytes of (width, number) fields, most significant bit first; the widths fill whole bytes."""
    whole, width = 0, 0
    for bits, value in fields:
        if not 0 <= value < 1 << bits:
            raise ValueError(f"{value} does not fit {bits} bits")
        whole, width = whole << bits | value, width + bits
    return whole.to_bytes(width // 8, "big")


def named(names, value):
    return names.index(value.lower()) if isinstance(value, str) else value


def header(about):
    limit, version = about.get("limit"), about.get("version", 1)
    behind = [(1, named(STARTS, about.get("start", "usual"))), (7, 0)] if version == 2 else []
    return packed([
        (4, version), (2, named(FAMILIES, about["family"])), (3, named(LINKS, about["link"])),
        (1, about.get("weights") is not None), (1, about.get("offset") is not None), (5, about.get("n_agq", 1)),
        (13, about.get("n", len(about["y"]))), (5, about.get("p", len(about["x"][0]) if about["x"] else 0)),
        (4, about.get("count", len(about["blocks"]))), (10, NOT_GIVEN if limit is None else limit), *behind])


def head_length(about):
    """How many bytes the header has."""
    return 7 if about.get("version", 1) == 2 else 6


def row_bytes(row):
    entries = b"".join(packed([(13, column), (3, 0)]) + number_bytes(value) for column, value in row)
    return packed([(13, len(row)), (3, 0)]) + entries


def job_bytes(about):
    """The job of a description whose blocks have m and k."""
    numbers = [*about["theta"], *about["y"], *(about.get("weights") or []), *(about.get("offset") or []), *(v for row in about["x"] for v in row)]
    return b"".join([header(about), *(packed([(7, b["m"]), (4, b["k"]), (5, 0)]) for b in about["blocks"]),
                     *map(number_bytes, numbers), *map(row_bytes, about["zt"])])


def block_rows(block):
    """m, k and the rows of Z' of a block that is given by groups."""
    groups = [json.dumps(group) for group in block["group"]]
    places = {group: g for g, group in enumerate(dict.fromkeys(groups))}
    z = block.get("z") or [[1.0]] * len(groups)
    k = len(z[0])
    rows = [[] for _ in range(len(places) * k)]
    for i, group in enumerate(groups):
        for e in range(k):
            rows[places[group] * k + e].append([i, z[i][e]])
    return {"m": len(places), "k": k}, rows


def from_groups(about):
    """The description with m, k and zt where its blocks were given by groups."""
    if "zt" in about:
        return about
    pairs = [block_rows(block) for block in about["blocks"]]
    return {**about, "blocks": [b for b, _ in pairs], "zt": [row for _, rows in pairs for row in rows]}


def numbers_text(values):
    return None if values is None else [number_text(v) for v in values]


def description_of(job):
    """The description of a job that was read."""
    later = {"version": 2, "start": STARTS[job.start]} if job.version == 2 else {}
    return {**later, "family": FAMILIES[job.family], "link": LINKS[job.link], "n_agq": job.n_agq, "limit": job.limit,
            "blocks": [{"m": m, "k": k} for m, k in job.blocks], "theta": numbers_text(job.theta), "y": numbers_text(job.y),
            "weights": numbers_text(job.weights), "offset": numbers_text(job.offset), "x": [numbers_text(row) for row in job.x],
            "zt": [[[column, number_text(v)] for column, v in row] for row in job.zt]}


def text_of(about):
    """A description as JSON, one line for each name and for each row."""
    def item(value):
        if isinstance(value, list) and value and isinstance(value[0], list):
            return "[\n    " + ",\n    ".join(json.dumps(row) for row in value) + "]"
        return json.dumps(value)
    return "{\n  " + ",\n  ".join(f"{json.dumps(name)}: {item(value)}" for name, value in about.items()) + "\n}"
