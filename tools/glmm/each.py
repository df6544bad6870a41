"""Many responses for ./fit (document 02, P1): the text that holds them, the calls of `fitmany`, and a line for each response.

The text has a row for each response, of as many numbers as the job has responses; they stand between blanks, commas or semicolons. A number may be a fraction of two,
2/80, as a count of a total is. Empty lines and lines that start with # say nothing.
The responses are handed to `fitmany` in parts, of about a second each, so that a long run can say how far it is: each response is answered as in a call of its own
(many/proofs/Alone). All of them are handed over once before, with no iteration allowed, since any of them can refuse the whole."""
import re, sys, time
import proving
from form import FAMILIES, NOT_GIVEN, number_bytes
from reader import Refused, parse
from sheet import Fault, decoded, number, short
from told import Answer, Names, Unreadable, columns, counted, decimal, model, sheet_for, table, warnings, words_for, wrapped

HEAD = re.compile(r"(?m)^response (\d+)\n")
TURN = 1.0  # seconds that a part should take, and after which a run says how far it is
PAUSE = 10.0  # seconds between two lines of that where no terminal is


# ---- the text

def cell(word, where):
    above, slash, below = word.partition("/")
    if not slash:
        return number(word, where)
    total = number(below, where)
    if total == 0:
        raise Fault(f"{where}: '{short(word)}' is divided by 0")
    return number(above, where) / total


def responses_of(data, job):
    """The rows of a text; `job` (reader.py) is None where it can't be read."""
    found = []
    for at, line in enumerate(decoded(data).splitlines(), 1):
        words = re.split(r"[\s,;]+", line.strip(" \t,;"))
        if words == [""] or words[0].startswith("#"):
            continue
        found.append([cell(word, f"line {at}, number {place}") for place, word in enumerate(words, 1)])
        if job and len(words) != job.n:
            raise Fault(f"line {at}: {counted(len(words), 'number')}, but the job has {counted(job.n, 'response')}")
    return found


# ---- the calls

def packed(job, responses):
    """What `fitmany` reads."""
    return len(job).to_bytes(3, "big") + job + b"".join(number_bytes(y) for ys in responses for y in ys)


def without_iterations(job):
    """The job with no iteration allowed; one whose limit is none stays as it is."""
    limit = int.from_bytes(job[4:6], "big") & NOT_GIVEN
    return job if 1001 <= limit < NOT_GIVEN or len(job) < 6 else job[:4] + bytes([job[4] & 0xFC, 0]) + job[6:]


class Progress:
    """How many responses are fitted, told once a run has taken its time."""

    def __init__(self, total):
        self.total, self.began, self.last = total, time.monotonic(), None

    def tell(self, done):
        gone, terminal = time.monotonic() - self.began, sys.stderr.isatty()
        if gone < TURN or done == self.total or not terminal and self.last is not None and gone - self.last < PAUSE:
            return
        self.last, rest = gone, gone / done * (self.total - done)
        proving.say(f"{done} of {self.total} responses, about {round(rest)} s left", over=True)

    def close(self):
        if self.last is not None and sys.stderr.isatty():
            print("\r\033[K", file=sys.stderr, end="", flush=True)


def renumbered(text, first, count):
    """What is printed of a part, with the numbers that its responses have among all."""
    if [*map(int, HEAD.findall(text))] != [*range(count)]:
        raise Unreadable(f"a part that is not that of {counted(count, 'response')}: {text[:60]!r}")
    return HEAD.sub(lambda found: f"response {first + int(found[1])}\n", text)


def in_parts(run, job, responses):
    """What is printed of each part in turn."""
    done, size, progress = 0, 1, Progress(len(responses))
    try:
        while done < len(responses):
            part, began = responses[done:done + size], time.monotonic()
            yield renumbered(run(packed(job, part)), done, len(part))
            done += len(part)
            size = max(1, int(TURN * len(part) / max(time.monotonic() - began, 1e-6)))
            progress.tell(done)
    finally:
        progress.close()


def answered(run, job, responses):
    """What `fitmany` prints for all of them; `run` hands it bytes, and gives what it printed."""
    if len(responses) == 1:
        return run(packed(job, responses))
    text = run(packed(without_iterations(job), responses))
    return text if text.startswith("refused ") else "".join(in_parts(run, job, responses))


def read(data):
    """A job, or None where its bytes are refused."""
    try:
        return parse(data)
    except Refused:
        return None


def answers(text):
    """The refusal, or the answer to each response."""
    return [Answer(part) for part in HEAD.split(text)[2::2]] or [Answer(text)]


def status(text):
    """0 where all are fitted, 3 refused, 4 where one ended without a result."""
    found = answers(text)
    return 3 if found[0].refused else 4 if any(answer.counts["end"] for answer in found) else 0


# ---- the table

def spread(job, b):
    """The root of the mean square of each block's b."""
    at = 0
    for m, k in job.blocks:
        part, at = b[at:at + m * k], at + m * k
        yield (sum(v * v for v in part) / len(part)) ** 0.5


def row(job, number, answer):
    """The cells of a response."""
    counts, lists = answer.counts, answer.lists
    free = FAMILIES[job.family] in ("gaussian", "gamma")
    if not lists:
        return [str(number), str(counts["end"]), *["-"] * (2 + free + job.p + len(job.blocks))]
    values = [lists["deviance"][0], *lists["phi"][:free], *lists["beta"], *spread(job, lists["b"])]
    return [str(number), str(counts["end"]), str(counts["iters"]), *map(decimal, values)]


def heads(job, names):
    free = FAMILIES[job.family] in ("gaussian", "gamma")
    blocks = [f"b {short(name or str(b))}" for b, (name, _, _) in enumerate(names.blocks)]
    return ["", "end", "iterations", "deviance", *["phi"] * free, *map(short, names.fixed), *blocks]


def places(found, total):
    return "all responses" if len(found) == total > 1 else f"response{'s' * (len(found) > 1)} {' '.join(map(str, found))}"


def remarks(job, found, responses, names):
    """What ended without a result, and what the table of a response would warn of, with the responses that it holds for."""
    ends, warned = {}, {}
    for number, (answer, job.y) in enumerate(zip(found, responses)):
        if answer.counts["end"]:
            ends.setdefault(answer.counts["end"], []).append(number)
        for text in warnings(job, answer.counts, answer.lists, names) if answer.lists else []:
            warned.setdefault(text.split(":")[0], []).append(number)
    for end, numbers in sorted(ends.items()):
        means, do = words_for(end)
        yield f"end {end}, {places(numbers, len(found))}: {means} What to do: {do}"
    for text, numbers in warned.items():
        yield f"WARNING, {places(numbers, len(found))}: {text}."


def told(text, data, responses, file=None, sheet=None):
    """The lines of the table; names come from `sheet`, else from the text beside `file`."""
    found, job = answers(text), read(data)
    if found[0].refused:
        return table(found[0], job)
    names = Names(job, sheet_for(job, data, file, sheet))
    for answer in found:
        answer.check(job)
    lines = columns([heads(job, names), *(row(job, number, answer) for number, answer in enumerate(found))])
    last = [line for remark in remarks(job, found, responses, names) for line in wrapped(remark)]
    fitted = sum(answer.counts["end"] == 0 for answer in found)
    return [*model(job), "", f"{fitted} of {counted(len(found), 'response')} fitted; b is the root of the mean square of a block's b", *lines, *([""] if last else []), *last]
