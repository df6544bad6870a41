"""Is a JSON text the description of a job (form.py)? The job may be a bad one, but everything must fit its field."""
import json, math, re
from form import FAMILIES, LINKS, STARTS, from_groups

FIELDS = {"version": 4, "n_agq": 5, "n": 13, "p": 5, "count": 4}  # whole numbers, each with its bits
WANTED = ["family", "link", "blocks", "theta", "y", "x"]
KNOWN = [*WANTED, "weights", "offset", "limit", "start", "zt", *FIELDS]
SPECIAL = re.compile("[+-]?(nan|inf|infinity)|[0-9a-f]{16}", re.IGNORECASE)


class Wrong(Exception):
    """What is wrong with a description, and where."""


def check_whole(value, bits, where):
    if type(value) is not int or not 0 <= value < 1 << bits:
        raise Wrong(f"{where}: a whole number from 0 to {(1 << bits) - 1} is wanted")


def check_named(names, value, bits, where):
    if isinstance(value, str) and value.lower() not in names:
        raise Wrong(f"{where}: one of {', '.join(names)} is wanted, or its number")
    if not isinstance(value, str):
        check_whole(value, bits, where)


def check_number(value, where):
    try:
        good = SPECIAL.fullmatch(value) if isinstance(value, str) else type(value) in (int, float) and math.isfinite(float(value)) or type(value) is float
    except OverflowError:
        good = False
    if not good:
        raise Wrong(f'{where}: a number is wanted, or "nan", "inf", "-inf" or 16 hexadecimal digits')


def check_list(values, where, most, each):
    if not isinstance(values, list) or len(values) > most:
        raise Wrong(f"{where}: a list is wanted, of at most {most}")
    for i, value in enumerate(values):
        each(value, f"{where}[{i}]")


def check_numbers(values, where, most=8191):
    check_list(values, where, most, check_number)


def check_entry(entry, where):
    if not isinstance(entry, list) or len(entry) != 2:
        raise Wrong(f"{where}: [column, value] is wanted")
    check_whole(entry[0], 13, f"{where}[0]")
    check_number(entry[1], f"{where}[1]")


def check_object(value, where, wanted, known):
    """An object with the wanted names, and none that is not known."""
    if not isinstance(value, dict):
        raise Wrong(f"{where}: an object is wanted")
    for name in value:
        if name not in known:
            raise Wrong(f"{where}: no '{name[:40]}' is known here; the names are {', '.join(known)}")
    missing = [name for name in wanted if name not in value]
    if missing:
        raise Wrong(f"{where}: {' and '.join(missing)} {'is' if len(missing) == 1 else 'are'} missing")


def check_sized_block(block, where):
    check_object(block, where, ["m", "k"], ["m", "k", "group", "z"])
    check_whole(block["m"], 7, f"{where}.m")
    check_whole(block["k"], 4, f"{where}.k")


def check_grouped_block(block, where):
    """A block that is given by the group of each response."""
    check_object(block, where, ["group"], ["group", "z"])
    check_list(block["group"], f"{where}.group", 8191, lambda value, at: None)
    if not block["group"]:
        raise Wrong(f"{where}.group: a group for each response is wanted")
    if block.get("z"):
        check_list(block["z"], f"{where}.z", 8191, lambda row, at: check_numbers(row, at, 15))
        if len(block["z"]) != len(block["group"]) or len(set(map(len, block["z"]))) > 1:
            raise Wrong(f"{where}.z: a row for each response is wanted, all of one length")


def described(text):
    """The description that a JSON text is, with m, k and zt; a description may be that of a bad job, but must fit the job's fields."""
    try:
        about = json.loads(text)
    except json.JSONDecodeError as fault:
        raise Wrong(f"line {fault.lineno}, column {fault.colno}: no JSON: {fault.msg}") from None
    except (ValueError, RecursionError):
        raise Wrong("no JSON that can be read: a number of thousands of digits, or lists in lists without end") from None
    check_object(about, "the description", WANTED, KNOWN)
    check_named(FAMILIES, about["family"], 2, "family")
    check_named(LINKS, about["link"], 3, "link")
    check_named(STARTS, about.get("start", "usual"), 1, "start")
    if "start" in about and about.get("version") != 2:
        raise Wrong("start: a job of version 2 alone says it; give version 2, too")
    for name, bits in FIELDS.items():
        check_whole(about.get(name, 0), bits, name)
    check_whole(about["limit"] if about.get("limit") is not None else 0, 10, "limit")
    for name in ("theta", "y", "weights", "offset"):
        check_numbers(about[name] if about.get(name) is not None or name in WANTED else [], name)
    check_list(about["x"], "x", 8191, lambda row, at: check_numbers(row, at, 31))
    check_list(about["blocks"], "blocks", 15, check_sized_block if "zt" in about else check_grouped_block)
    whole = from_groups(about)
    check_list(whole["blocks"], "blocks", 15, check_sized_block)
    check_list(whole["zt"], "zt", 28575, lambda row, at: check_list(row, at, 8191, check_entry))
    return whole
