"""What `fitjob` printed, taken apart (Answer), and told in words and decimals (table) or as JSON. The words for each number are those of docs/NUMBERS.md.

The JSON is one object:
    settings   family, link, n, p, q, theta, n_agq, limit (null: not given), start, weights and offset (whether given), and blocks, each with its number
               of groups m and of effects k, the column that names the groups, the effects and the groups (null where no text tells them); null where the
               job can't be read
    refused    null, or {number, byte, meaning, todo}
    end        null where refused, else {number, meaning, todo}
    counts     null where refused, else the numbers of the end line by their names: order, disp, iters, fits, solves, tries, points, why,
               eta, mean, pwrss, ok
    warnings   a list of texts
    names      null where not fitted, else columns (of beta, se, z, v), effects (of u, b) and responses (of mu, eta, residual)
    results    null where not fitted, else every list by its name: deviance and phi as numbers, v as p rows
    derived    null where not fitted, else lower and upper, the ends of Wald's 95 % interval of each beta, and sd, the standard
               deviation of each b given beta, theta and phi
Numbers are decimals that read back to the same bits. JSON has no infinity and no NaN: these are the strings "Infinity", "-Infinity" and "NaN"."""
import functools, json, math, re, struct, sys, textwrap
from pathlib import Path
from form import FAMILIES, LINKS, STARTS
from reader import Refused, parse
from sheet import short, sheet_beside
from spread import LEAST, effect_spread, own_parts, slope, variance, wald

NUMBERS = Path(__file__).resolve().parents[2] / "docs" / "NUMBERS.md"
COUNTS = "end order disp iters fits solves tries points why eta mean pwrss ok".split()
REFUSED = {"eta": "for eta", "mean": "for a mean", "pwrss": "for PWRSS"}  # tries, by the first test that they failed
RESTLESS = 0.01  # a step, in standard errors, that a fit at rest would not take
OWN = 1e-5  # the part of a column that the others don't give, below which six digits of se are not sure
WHOLE = 0.001  # how far a binomial count may be from a whole number
LISTS = "deviance phi beta se z u b mu eta residual v".split()


class Unreadable(Exception):
    """A line that `fitjob` would not have printed."""


class Answer:
    """`refused`, a number and its byte, or None; else `counts` of the end line and the named `lists` of a fitted job."""

    def __init__(self, text):
        lines = text.splitlines()
        first = lines[0] if lines else ""
        self.refused, self.counts, self.lists = None, {}, {}
        if re.fullmatch(r"refused \d+ at \d+", first):
            self.refused = int(first.split()[1]), int(first.split()[3])
        elif re.fullmatch(" ".join(name + r" \d+" for name in COUNTS), first):
            self.counts = dict(zip(COUNTS, map(int, first.split()[1::2])))
        if not self.refused and not (reasoned(self.counts) and parted(self.counts)):
            raise Unreadable(f"line 1: '{first}'")
        for at, line in enumerate(lines[1:], 2):
            self.take(at, line)
        if bool(self.lists) != (self.counts.get("end") == 0):
            raise Unreadable("results of a job that was not fitted" if self.lists else "a fitted job without results")

    def take(self, at, line):
        """A name, an index and sixteen digits; the lists come in one order, and each is counted from 0."""
        if not re.fullmatch(r"[a-z]+ \d+ [0-9A-F]{16}", line):
            raise Unreadable(f"line {at}: '{line}'")
        name, index, digits = line.split()
        if name not in self.lists and LISTS[len(self.lists):len(self.lists) + 1] != [name]:
            raise Unreadable(f"line {at}: {name} out of its order")
        found = self.lists.setdefault(name, [])
        if name != list(self.lists)[-1] or int(index) != len(found):
            raise Unreadable(f"line {at}: {name} {index} out of its order")
        found.append(struct.unpack(">d", bytes.fromhex(digits))[0])

    def check(self, job):
        """The lists have the lengths that the job's sizes say."""
        n, p, q = job.n, job.p, job.q
        for name, wanted in zip(LISTS, [1, 1, p, p, p, q, q, n, n, n, p * p]):
            if self.lists and len(self.lists.get(name, [])) != wanted:
                raise Unreadable(f"{len(self.lists.get(name, []))} numbers of {name}, but the job has {wanted}")


def reasoned(counts):
    """A fit that stayed with Laplace has a reason, and nothing else has one."""
    return bool(counts) and counts["why"] in (range(1, 7) if counts["order"] == 1 else range(1))


def parted(counts):
    """What became of the tries adds up to them, and no more were accepted than systems were solved."""
    return sum(counts[part] for part in (*REFUSED, "ok")) == counts["tries"] and counts["ok"] <= counts["solves"]


def meanings():
    """Number: what it means, and what to do; from the tables with this head."""
    tables = re.findall(r"(?m)^\| No\. \| what it means \| what to do \|\n.*\n((?:\|.*\n)+)", NUMBERS.read_text(encoding="utf-8"))
    found = re.findall(r"(?m)^\| (\d+) \| (.*) \| (.*) \|$", "".join(tables))
    return {int(number): (means, do) for number, means, do in found}


def reasons():
    """Why it stayed with Laplace: what the number means, and what to do."""
    found = re.findall(r"(?m)^\| why (\d) \| (.*) \| (.*) \|$", NUMBERS.read_text(encoding="utf-8"))
    return {int(number): (means, do) for number, means, do in found}


def parts():
    """What became of a try: what its name means, and what to do."""
    found = re.findall(r"(?m)^\| (eta|mean|pwrss|ok) \| (.*) \| (.*) \|$", NUMBERS.read_text(encoding="utf-8"))
    return {name: (means, do) for name, means, do in found}


def decimal(value):
    return "NaN" if math.isnan(value) else f"{value:.6g}"


def wrapped(text):
    return textwrap.wrap(text, 110, subsequent_indent="  ", break_on_hyphens=False)


def columns(rows):
    """Rows of cells: the first column to the left, numbers to the right."""
    widths = [max(map(len, column)) for column in zip(*rows)]
    return ["  " + "  ".join([row[0].ljust(widths[0]), *(cell.rjust(width) for cell, width in zip(row[1:], widths[1:]))]).rstrip() for row in rows]


def lined(names, lists, *wanted):
    """One line for each name, with its number in each wanted list."""
    return columns([["", *wanted], *([short(name), *map(decimal, values)] for name, values in zip(names, zip(*(lists[w] for w in wanted))))])


class Names:
    """What the numbers of a job are called: by the text that it was made from, or by their place."""

    def __init__(self, job, sheet):
        self.fixed = sheet.fixed if sheet else [f"x{j}" for j in range(job.p)]
        self.effects = sheet.effects if sheet else [
            f"block {b} group {g} effect {e}" for b, (m, k) in enumerate(job.blocks) for g in range(m) for e in range(k)]
        groups = list(zip(*sheet.groups)) if sheet else [()] * job.n
        self.rows = [" ".join([str(i), *of]) for i, of in enumerate(groups)]
        self.blocks = list(zip(sheet.factors, sheet.terms, sheet.levels)) if sheet else [(None, None, None)] * len(job.blocks)

    def block(self, b):
        return f"block {b}" if self.blocks[b][0] is None else f"the block of {short(self.blocks[b][0])}"


def counted(count, name):
    return f"{count} {name}" + ("s" if count != 1 else "")


def model(job):
    """The job in a few lines."""
    extra = [name for name, given in (("weights", job.weights), ("offset", job.offset)) if given is not None]
    blocks = ", ".join(f"{counted(m, 'group')} of {k}" for m, k in job.blocks)
    return [f"  {FAMILIES[job.family]}, {LINKS[job.link]} link" + "".join(f", {name}" for name in extra),
            f"  {counted(job.n, 'response')}, {counted(job.p, 'column')} of X, {counted(job.q, 'random effect')} ({blocks})",
            f"  theta {' '.join(map(decimal, job.theta))}, n_agq {job.n_agq}, limit {'not given' if job.limit is None else job.limit}" + ", start with trial counts" * job.start]


def next_step(job, lists):
    """How far one more step would move beta, about: the largest of v times the score of the fixed effects, in standard errors."""
    score, phi = [0.0] * job.p, max(lists["phi"][0], LEAST)
    for i, (mu, eta) in enumerate(zip(lists["mu"], lists["eta"])):
        weight = max(job.weights[i], 0) if job.weights else 1
        pull = weight * slope(LINKS[job.link], mu, eta) * (job.y[i] - mu) / (phi * variance(FAMILIES[job.family], mu))
        score = [s + x * pull for s, x in zip(score, job.x[i])]
    steps = [sum(a * b for a, b in zip(lists["v"][j * job.p:], score)) for j in range(job.p)]
    far = [abs(step) / se if se > 0 else math.inf for step, se in zip(steps, lists["se"]) if step != 0]
    return math.nan if any(map(math.isnan, far)) else max(far, default=0.0)


def fractions(job):
    """The responses that are no counts, in words."""
    if FAMILIES[job.family] == "poisson":
        return [decimal(y) for y in job.y if y != math.floor(y)]
    if FAMILIES[job.family] != "binomial":
        return []
    counts = [(y * w, w) for y, w in zip(job.y, job.weights or [1.0] * job.n) if w > 0 and math.isfinite(y * w)]
    return [f"{decimal(count)} of {decimal(total)}" for count, total in counts if abs(count - round(count)) > WHOLE]


def of_data(job, names):
    """What is odd with the responses and groups."""
    found = fractions(job)
    if found:
        yield (f"{counted(len(found), 'response')} can't be {'a count' if len(found) == 1 else 'counts'} ({found[0]}{', ..' if len(found) > 1 else ''}): "
               f"{FAMILIES[job.family]} is a family of counts, and se, z and the deviance hold for counts only.")
    for b, (m, _) in enumerate(job.blocks):
        if m == 1:
            yield (f"{names.block(b)} has a single group: its effects can't be told from the fixed ones, and no theta can be chosen for it "
                   "(lme4 refuses such a model).")


def of_columns(job, lists, names):
    """Columns of X that nearly follow from each other."""
    near = [(part, name) for part, name in zip(own_parts(lists["v"], job.p), names.fixed) if part < OWN]
    if near:
        part, least = min(near)
        yield (f"the columns {', '.join(short(name) for _, name in near)} of X nearly follow from each other: but for {part:.1g} of its length the others give "
               f"{short(least)}. Six digits of their beta, se and z are not sure, or none at all. Leave one out; or, if all values of one are near some number, "
               "take that off them.")


def stopped(counts):
    """What stopped the tries that were refused, in words; nothing where all were accepted."""
    for part, test in REFUSED.items():
        if counts[part] > 0:
            means, do = parts().get(part, ("a test that is not known here.", "look into docs/NUMBERS.md"))
            yield f"tries refused {test}, {counts[part]} of {counts['tries']}: {means} What to do: {do}"


def warnings(job, counts, lists, names):
    """What a reader of this fit should know (docs/NUMBERS.md, 'What the table warns of')."""
    order, deviance = counts["order"], lists["deviance"][0]
    if order > 1:
        yield ("the order is above 1: this deviance is no measure for choosing theta, and not to be compared with one of another n_agq. "
               "Choose theta with n_agq 1 (docs/DIFFERENCES.md).")
    if order == 1 and job.n_agq > 1:
        means, do = reasons().get(counts["why"], ("a reason that is not known here.", "look into docs/NUMBERS.md"))
        yield f"n_agq {job.n_agq} was wished, but the deviance is Laplace's, why {counts['why']}: {means} What to do: {do}"
    if 1 < order != job.n_agq:
        yield f"n_agq {job.n_agq} was wished, order {order} was used."
    if not math.isfinite(deviance):
        yield "the deviance is not finite: a Gaussian or Gamma fit has no residual left, a weight is enormous, or a Poisson response is next to 0."
    if FAMILIES[job.family] == "gamma" and not min(lists["mu"]) > 0:
        yield "a mean is not above 0, which no Gamma response can have: in variance, deviance and AIC it counts as 2^-52. Take the log link."
    step = next_step(job, lists)
    if not step <= RESTLESS:
        yield (f"the fit stopped early: one more step would move beta by about {decimal(step)} standard errors. The stop test passes also where every "
               "working response is met exactly, as with responses that are all 0. Don't use these estimates (docs/NUMBERS.md).")
    yield from of_columns(job, lists, names)
    if counts["disp"] == 0:
        yield "the dispersion did not settle in 240 rounds: phi and what follows from it are those of the last round."
    if counts["tries"] > counts["solves"]:
        yield "steps were halved: where the last one was, beta, u and b are the full step's, mu and eta the halved one's."
        yield from stopped(counts)
    if job.weights and not all(w > 0 for w in job.weights):
        yield "a weight is not above 0: in the fit it acts as 2^-52, in the deviance as it is."
    yield from of_data(job, names)


def fitted(job, answer, names, rows):
    lists, order = answer.lists, answer.counts["order"]
    told = [f"  deviance  {decimal(lists['deviance'][0])} ({'Laplace' if order == 1 else f'quadrature of order {order}'})",
            f"  phi       {decimal(lists['phi'][0])}", *(line for text in warnings(job, answer.counts, lists, names) for line in wrapped(f"WARNING: {text}")), ""]
    lower, upper = wald(lists)
    told += ["fixed effects; from .. to is Wald's 95 % interval, beta \u00b1 1.959964 se",
             *lined(names.fixed, {**lists, "from": lower, "to": upper}, "beta", "se", "z", "from", "to"), "",
             "random effects; sd is that of b given beta, theta and phi", *lined(names.effects, {**lists, "sd": effect_spread(job, lists)}, "u", "b", "sd"), ""]
    v = [[short(name), *map(decimal, lists["v"][i * job.p:(i + 1) * job.p])] for i, name in enumerate(names.fixed)]
    told += ["v, whose diagonal is se squared", *columns([["", *map(short, names.fixed)], *v])]
    if rows:
        told += ["", "responses, counted from 0", *lined(names.rows, {**lists, "y": job.y}, "y", "mu", "eta", "residual")]
    return told


def words_for(number):
    """What a number of an answer means, and what to do."""
    return meanings().get(number, ("a number that is not known here", "look into docs/NUMBERS.md"))


def table(answer, job, sheet=None, rows=False):
    """The lines of the table; `job` (reader.py) is None where it was refused as bytes."""
    if answer.refused:
        number, byte = answer.refused
        means, do = words_for(number)
        return [*wrapped(f"refused {number} at byte {byte}: {means}"), *wrapped(f"What to do: {do}")]
    counts = answer.counts
    means, do = words_for(counts["end"])
    account = "inner fits {fits}, solves {solves}, tries {tries}, points {points}".format(**counts)
    told = [*model(job), "", *wrapped(f"end {counts['end']}: {means}")]
    if counts["end"] != 0:
        return [*told, *wrapped(f"What to do: {do}"), f"  {account}", *(line for text in stopped(counts) for line in wrapped(text))]
    return [*told, f"  iterations {counts['iters']}, {account}", *fitted(job, answer, Names(job, sheet), rows)]


@functools.cache
def remark(text):
    """A line on standard error, once: the table and the plot of one answer may both have cause for it."""
    print(text, file=sys.stderr)


def understood(lines, data, file=None, sheet=None):
    """The answer, the job (None where it was refused as bytes), and the text that names its parts, which is looked for beside `file` where it is not given."""
    answer = Answer(lines)
    try:
        job = parse(data)
    except Refused:
        job = None
    if job is None and not answer.refused:
        raise Unreadable("an end, for a job that can't be read")
    if job:
        answer.check(job)
    return answer, job, sheet_for(job, data, file, sheet)


def sheet_for(job, data, file, sheet):
    """The text that names a job's parts: the one that is given, else the one beside `file`."""
    if job is None or sheet is not None or file in (None, "", "-"):
        return sheet
    sheet, told = sheet_beside(file, job, data)
    if told:
        remark(told)
    return sheet


def put_lines(lines):
    """Prints lines; a sign that standard output has no code for is written as its number."""
    coded = getattr(sys.stdout, "encoding", None) or "utf-8"
    print("\n".join(lines).encode(coded, "backslashreplace").decode(coded))


def tell(lines, data, file=None, rows=False, sheet=None):
    """Prints the table of what was printed for the job `data`; names come from `sheet`, else from the text beside `file`, where there is one."""
    answer, job, sheet = understood(lines, data, file, sheet)
    put_lines(table(answer, job, sheet, rows))


# ---- JSON

def plain(value):
    """What JSON can hold: a number that is none as a string."""
    if isinstance(value, float) and not math.isfinite(value):
        return "NaN" if math.isnan(value) else "Infinity" if value > 0 else "-Infinity"
    if isinstance(value, dict):
        return {name: plain(part) for name, part in value.items()}
    return [plain(part) for part in value] if isinstance(value, (list, tuple)) else value


def settings(job, names):
    blocks = [{"m": m, "k": k, "column": column, "effects": effects, "groups": groups} for (m, k), (column, effects, groups) in zip(job.blocks, names.blocks)]
    return {"family": FAMILIES[job.family], "link": LINKS[job.link], "n": job.n, "p": job.p, "q": job.q, "theta": job.theta, "n_agq": job.n_agq,
            "limit": job.limit, "start": STARTS[job.start], "weights": job.weights is not None, "offset": job.offset is not None, "blocks": blocks}


def results(job, lists):
    rows = [lists["v"][i * job.p:(i + 1) * job.p] for i in range(job.p)]
    return {**lists, "deviance": lists["deviance"][0], "phi": lists["phi"][0], "v": rows}


def derived(job, lists):
    lower, upper = wald(lists)
    return {"lower": lower, "upper": upper, "sd": effect_spread(job, lists)}


def description(answer, job, sheet):
    """The object of the JSON."""
    names, lists = Names(job, sheet) if job else None, answer.lists
    number = answer.refused[0] if answer.refused else answer.counts["end"]
    said = dict(zip(("meaning", "todo"), words_for(number)))
    return {"settings": settings(job, names) if job else None,
            "refused": {"number": number, "byte": answer.refused[1], **said} if answer.refused else None,
            "end": None if answer.refused else {"number": number, **said},
            "counts": {name: count for name, count in answer.counts.items() if name != "end"} or None,
            "warnings": list(warnings(job, answer.counts, lists, names)) if lists else [],
            "names": {"columns": names.fixed, "effects": names.effects, "responses": names.rows} if lists else None,
            "results": results(job, lists) if lists else None,
            "derived": derived(job, lists) if lists else None}


def as_json(lines, data, file=None, sheet=None):
    """What was printed for the job `data` as one JSON object; each name's part stands on a line of its own."""
    whole = plain(description(*understood(lines, data, file, sheet)))

    def item(part):
        if isinstance(part, dict):
            return "{\n    " + ",\n    ".join(f"{json.dumps(name)}: {json.dumps(value)}" for name, value in part.items()) + "\n  }"
        return json.dumps(part)
    return "{\n  " + ",\n  ".join(f"{json.dumps(name)}: {item(part)}" for name, part in whole.items()) + "\n}\n"
