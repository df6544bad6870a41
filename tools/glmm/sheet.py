"""The text that a job is made from: a head of lines 'name: words', then a table with a line of column names and a row for each response.

    # weak cells of a lot             a line that starts with # says nothing
    family: binomial                  binomial, poisson, gaussian or gamma
    link: logit                       binomial: logit, probit, cloglog; poisson: log, identity, sqrt; gaussian: identity, log, inverse; gamma: inverse, identity, log
    response: weak / cells            a column; or a count and its total: their quotient, with the total as weight
    weights: sure                     a column; left out: absent (or the total)
    offset: log area                  a column, or the natural logarithm of one; left out: absent
    fixed: 1 radius ring=rim          columns of X: 1, a column, or 1 where a column has this word and 0 elsewhere
    random: 1 radius | wafer          a block: effects, written as in fixed, and the column that names the group; a line for each block
    theta: 0.6 0.1 0.3                the lower triangle of each block, column by column, block after block
    n_agq: 1                          left out: 1
    limit: 100                        iterations of an inner fit; left out: not given
    start: trials                     binomial only: the means begin at (weight y + 0.5) / (weight + 1), as R's do; left out or usual: at (y + 0.5) / 2

    wafer  ring  cells  weak  radius
    W01    rim   120    4     0.9

Cells stand between blanks; between commas where the line of column names has one, else between semicolons where it has one. A cell or a column's name in quotes
may hold these too, with "" for a quote, on one line; so may a name or a word in the head: fixed: 1 "dark current" ring="outer rim". A column whose name is empty
(R's row names) is passed over. Decimals have a point. Groups are numbered as they first appear.
A text is UTF-8, with or without a mark at its start; its lines end in LF, CR LF or CR. Head and table may stand in two files (`modelled`): the head ends there,
the table is a CSV file as it is, and a fault says which of them its line is in.
Carried are at most 512 responses, 16 columns of X, 8 blocks, 8 effects of a group, 32 random effects, 8192 entries of Z' and 65536 bytes of the job."""
import io, math, re
from collections import Counter
from decimal import Decimal, localcontext
from pathlib import Path
from form import FAMILIES, LINKS, STARTS, block_rows, job_bytes
from program import begins_as_job
from reader import LONGEST, VALID

NAMES = ["family", "link", "response", "weights", "offset", "fixed", "random", "theta", "n_agq", "limit", "start"]
WANTED = ["family", "link", "response", "fixed", "random", "theta"]
NUMBER = re.compile(r"[+-]?(\d+(\.\d*)?|\.\d+)([eE][+-]?\d+)?", re.ASCII)
ENDING = re.compile(rb"\r\n|\r|\n")
STRANGE = re.compile(rb"[\x00-\x08\x0e-\x1f]")  # no text has these
QUOTED = r'"((?:[^"]|"")*)"'
MOST_ROWS, MOST_COLUMNS, MOST_BLOCKS, MOST_OF_GROUP, MOST_EFFECTS, MOST_ENTRIES = 512, 16, 8, 8, 32, 8192


class Fault(Exception):
    """What is wrong with a text, and where."""


class Modelled(str):
    """The text of two files: the first `cut` characters are the head."""


def decoded(data, of=""):
    """The text of a file's bytes; `of` is said behind the number of a line (' of the table')."""
    file = of and f"{of.removeprefix(' of ')}: "
    if data[:2] in (b"\xff\xfe", b"\xfe\xff"):
        raise Fault(f"{file}this is UTF-16; a text is saved as UTF-8")
    data = data.removeprefix(b"\xef\xbb\xbf")

    def fault(at, said):
        return Fault(f"line {len(ENDING.findall(data, 0, at)) + 1}{of}: byte {at} is 0x{data[at]:02X}, {said}")
    found = STRANGE.search(data)
    if found and begins_as_job(data):
        raise Fault(f"{file}this is no text: it begins as a job does")
    if found:
        raise fault(found.start(), "which no text has: this is a binary file, or UTF-16; a text is saved as UTF-8")
    try:
        return data.decode()
    except UnicodeDecodeError as wrong:
        raise fault(wrong.start, "which is no UTF-8; if this is Latin-1 or Windows' own code, save it as UTF-8") from None


def modelled(head, table):
    """The text of a head file and a CSV file, by their bytes."""
    above = decoded(head, " of the model") + "\n"
    text = Modelled(above + decoded(table, " of the table"))
    text.cut = len(above)
    return text


def lines(text, of=""):
    """Each line that says something, with its number."""
    for at, line in enumerate(io.StringIO(text, newline=None), 1):
        line = line.strip()
        if line and not line.startswith("#"):
            yield f"{at}{of}", line


def short(text, most=60):
    return text if len(text) <= most else text[:most] + ".."


def listed(names, mark=", ", most=40):
    """The names, but not thousands of them."""
    return mark.join(map(short, names[:most])) + (f" and {len(names) - most} more" if len(names) > most else "")


def number_hint(word):
    """What may be meant by a word that is no number."""
    if NUMBER.fullmatch(word.replace(",", ".", 1)):
        return "; decimals have a point, and thousands no comma"
    return "; a row in which something is missing is left out" if word.lower() in ("na", "nan", "null", "none", ".", "-", "") else ""


def number(word, where):
    if not NUMBER.fullmatch(word):
        raise Fault(f"{where}: '{short(word)}' is no number{number_hint(word)}")
    if not math.isfinite(float(word)):
        raise Fault(f"{where}: '{short(word)}' is past the largest double")
    return float(word)


def whole(word, most, where):
    if not re.fullmatch("[0-9]{1,9}", word) or int(word) > most:
        raise Fault(f"{where}: '{short(word)}' is no whole number from 0 to {most}")
    return int(word)


def logarithm(value, where):
    """The nearest double of ln, by sixty digits, so that a text gives the same job on every machine."""
    if not value > 0:
        raise Fault(f"{where}: {value:g} has no logarithm")
    with localcontext() as context:
        context.prec = 60
        return float(Decimal(value).ln())


def mark_of(line):
    """What stands between the cells below a line of column names; None is blanks."""
    outside = re.sub(QUOTED, "", line)
    return "," if "," in outside else ";" if ";" in outside else None


def cells_of(line, mark, at):
    if '"' not in line:
        return [cell.strip() for cell in line.split(mark)]
    pattern = re.compile(rf"\s*(?:{QUOTED}\s*|([^{mark}]*))({mark}|\Z)" if mark else rf"(?:{QUOTED}|(\S+))(\s+|\Z)")
    found, place, more = [], 0, True
    while more:
        cell = pattern.match(line, place)
        if not cell or (cell[2] or "").startswith('"'):
            raise Fault(f"line {at}: quotes that don't close, or end within a cell, from '{short(line[place:].strip(), 20)}' on")
        found.append(cell[1].replace('""', '"').strip() if cell[2] is None else cell[2].strip())
        place, more = cell.end(), cell[3] if mark else cell.end() < len(line)
    return found


def words_of(text, at):
    """The words of a line of the head; in quotes a word may hold blanks."""
    if text.count('"') % 2:
        raise Fault(f"line {at}: a quote that doesn't close")
    return [word.replace('"', "") for word in re.findall(r'(?:"[^"]*"|[^\s"])+', text)]


def bare(text):
    """A name without the quotes around it."""
    text = text.strip()
    return text[1:-1] if len(text) > 1 and text[0] == text[-1] == '"' else text


def check_size(count, name, most, at):
    if count > most:
        raise Fault(f"{count} {name}; at most {most} are carried" + (f" (line {at})" if at else ""))


class Sheet:
    """A text taken apart: `about` is the description of its job (form.py); `fixed` and `effects` are the names in it, `groups` those of each response's groups.
    Of each block `factors` has the column that names its group, `terms` its effects, `levels` its groups."""

    def __init__(self, text):
        self.head, self.rows, self.columns = {"random": []}, [], None
        cut = getattr(text, "cut", None)
        if cut is None:
            self.read(lines(text), self.take)
        else:
            self.read(lines(text[:cut], " of the model"), self.take_head)
            self.read(lines(text[cut:], " of the table"), self.take_row)
        if self.columns is None:
            self.check_head()
        if not self.rows:
            raise Fault("there are no rows below the head: a line of column names is wanted, then a row for each response")
        self.describe()

    # ---- reading, line by line; a head that is whole is tested before the first row is read, and a row too many ends it

    def read(self, numbered, take):
        for at, line in numbered:
            take(at, line)

    def take(self, at, line):
        """A line of the head, the column names, or a row."""
        name, colon, _ = line.partition(":")
        headed = self.columns is None and colon and len(name.split()) == 1
        (self.take_head if headed else self.take_row)(at, line)

    def take_head(self, at, line):
        name, colon, words = (part.strip() for part in line.partition(":"))
        if not colon or len(name.split()) != 1:
            raise Fault(f"line {at}: '{short(line, 20)}' is no line of a head ('name: words'), and the table stands in the other file")
        if name not in NAMES:
            raise Fault(f"line {at}: no '{short(name)}' is known here; the names are {', '.join(NAMES)}")
        if not words:
            raise Fault(f"line {at}: {name} is empty")
        if name == "random":
            self.head[name].append((at, words))
        elif name in self.head:
            raise Fault(f"line {at}: {name} was given before, on line {self.head[name][0]}")
        else:
            self.head[name] = (at, words)

    def take_row(self, at, line):
        """The column names, which end the head, or a row."""
        if self.columns is None:
            alone = "" if self.head["random"] or len(self.head) > 1 else "; a head in a file of its own is given with --model"
            self.check_head(f"; line {at}, '{short(line, 20)}', is taken for the column names{alone}")
            self.mark = mark_of(line)
            self.columns = cells_of(line, self.mark, at)
            for column, count in Counter(self.columns).items():
                if column and count > 1:
                    raise Fault(f"line {at}: two columns are named '{short(column)}'")
            return
        if len(self.rows) == MOST_ROWS:
            raise Fault(f"line {at}: row {MOST_ROWS + 1} of the table; at most {MOST_ROWS} responses are carried")
        cells = cells_of(line, self.mark, at)
        if len(cells) != len(self.columns):
            named = self.mark is None and line.startswith('"') and len(cells) == len(self.columns) + 1
            raise Fault(f"line {at}: {len(cells)} cells, but {len(self.columns)} columns are named ({listed(self.columns, ' ')})"
                        + ("; R's write.table is to be told row.names = FALSE" if named else ""))
        self.rows.append((at, cells))

    # ---- the head alone

    def check_head(self, then=""):
        missing = [name for name in WANTED if not self.head.get(name)]
        if missing:
            raise Fault(f"the head has no {' and no '.join(missing)}{then}")
        family, link = self.pair()
        self.about = {"family": family, "link": link, "n_agq": self.count("n_agq", 31, 1), "limit": self.count("limit", 1000, None), **self.start(family)}
        at, words = self.head["fixed"]
        self.fixed = words_of(words, at)
        check_size(len(self.fixed), "columns of X", MOST_COLUMNS, at)
        check_size(len(self.head["random"]), "blocks", MOST_BLOCKS, self.head["random"][-1][0])
        self.terms, self.factors = map(list, zip(*(self.block(at, words) for at, words in self.head["random"])))
        self.thetas()

    def pair(self):
        (at, family), (below, link) = self.head["family"], self.head["link"]
        if family not in FAMILIES:
            raise Fault(f"line {at}: no family '{short(family)}'; binomial, poisson, gaussian and gamma are carried")
        if link not in LINKS:
            raise Fault(f"line {below}: no link '{short(link)}'; the links are {', '.join(LINKS)}")
        pair = FAMILIES.index(family), LINKS.index(link)
        fitting = ", ".join(LINKS[l] for f, l in sorted(VALID) if f == pair[0])
        if pair not in VALID:
            raise Fault(f"line {below}: {family} can't have the link {link}, only {fitting}")
        return family, link

    def count(self, name, most, absent):
        if name not in self.head:
            return absent
        at, word = self.head[name]
        return whole(word, most, f"line {at}, {name}")

    def start(self, family):
        """What a job says of its start: R's wants version 2, and any other text makes a job of version 1."""
        at, word = self.head.get("start", (None, "usual"))
        if word not in STARTS:
            raise Fault(f"line {at}: no start '{short(word)}'; it is usual or trials")
        if word == "trials" and family != "binomial":
            raise Fault(f"line {at}: the start with trial counts is for binomial responses, and the family is {family}")
        return {"version": 2, "start": word} if word == "trials" else {}

    def block(self, at, words):
        """A block's effects, and the column that names its group."""
        effects, bar, column = words.partition("|")
        effects = words_of(effects, at)
        if not bar or not effects:
            raise Fault(f"line {at}: a block is written 'random: 1 | wafer', its effects and the column that names the group")
        check_size(len(effects), "effects of a group", MOST_OF_GROUP, at)
        return effects, bare(column)

    def thetas(self):
        at, words = self.head["theta"]
        self.about["theta"] = [number(word, f"line {at}, theta") for word in words.split()]
        wanted = [len(effects) * (len(effects) + 1) // 2 for effects in self.terms]
        if len(self.about["theta"]) != sum(wanted):
            raise Fault(f"line {at}: theta has {len(self.about['theta'])} numbers, but the blocks want {' + '.join(map(str, wanted))} (k effects: k(k+1)/2)")

    # ---- the head together with the rows

    def describe(self):
        self.responses(self.about["family"])
        self.about["offset"] = self.offset()
        self.about["x"] = self.rows_of(self.fixed, self.head["fixed"][0])
        self.blocks()
        check_size(sum(map(len, self.about["zt"])), "entries of Z'", MOST_ENTRIES, None)
        check_size(len(job_bytes(self.about)), "bytes of a job", LONGEST, None)

    def cells_under(self, column, at):
        """The cells of a column, each with its line."""
        if not column or column not in self.columns:
            hint = "; columns stand side by side, without signs between them" if set(column) & set("+~*()") or column == "-" else ""
            raise Fault(f"line {at}: no column '{short(column)}'{hint}; the columns are {listed([name for name in self.columns if name])}")
        place = self.columns.index(column)
        return [(line, cells[place]) for line, cells in self.rows]

    def numbers_of(self, column, at):
        cells = self.cells_under(column, at)
        if cells and not any(NUMBER.fullmatch(word) for _, word in cells):
            raise Fault(f"line {cells[0][0]}, column {short(column)}: '{short(cells[0][1])}' is no number; a column of words enters as {short(column)}=word")
        return [number(word, f"line {line}, column {short(column)}") for line, word in cells]

    def design(self, word, at):
        """A column of X or of a block's effects."""
        if word == "1":
            return [1.0] * len(self.rows)
        column, equals, label = word.partition("=")
        if not equals or word in self.columns:
            return self.numbers_of(word, at)
        found = [float(cell == label) for _, cell in self.cells_under(column, at)]
        if not any(found):
            raise Fault(f"line {at}: no row has '{short(label)}' in column {short(column)}")
        return found

    def rows_of(self, words, at):
        return [list(row) for row in zip(*(self.design(word, at) for word in words))]

    def responses(self, family):
        """y and the weights; what the family can't have is refused here, as it would be fitted with a NaN deviance."""
        at, words = self.head["response"]
        column, slash, total = map(bare, words.partition("/"))
        y, self.about["weights"] = self.numbers_of(column, at), None
        if slash:
            if "weights" in self.head:
                raise Fault(f"line {at}: the total {short(total)} is the weight already, so weights (line {self.head['weights'][0]}) can't be given too")
            weights = self.numbers_of(total, at)
            for (line, _), count, most in zip(self.rows, y, weights):
                if not 0 <= count <= most or most == 0:
                    raise Fault(f"line {line}: {short(column)} {count:g} of {short(total)} {most:g} is no part of a total above 0")
            y, self.about["weights"] = [count / most for count, most in zip(y, weights)], weights
        elif "weights" in self.head:
            self.about["weights"] = self.numbers_of(bare(self.head["weights"][1]), self.head["weights"][0])
        for (line, _), weight in zip(self.rows, self.about["weights"] or []):
            if "start" in self.about and weight < 0:
                raise Fault(f"line {line}: a weight of {weight:g} is no number of trials, which 'start: trials' (line {self.head['start'][0]}) takes it for")
        for (line, _), value in zip(self.rows, y):
            if family == "binomial" and not 0 <= value <= 1:
                raise Fault(f"line {line}: a binomial response is 0, 1 or a proportion between, not {value:g}; a count is written 'response: count / total'")
            if family == "poisson" and value < 0:
                raise Fault(f"line {line}: a Poisson response is a count, not {value:g}")
            if family == "gamma" and value <= 0:
                raise Fault(f"line {line}: a Gamma response is above 0, not {value:g}")
        self.about["y"] = y

    def offset(self):
        if "offset" not in self.head:
            return None
        at, text = self.head["offset"]
        words = words_of(text, at)
        column = words[-1] if words else ""
        if words not in ([column], ["log", column]):
            raise Fault(f"line {at}: an offset is a column, or 'log' and a column")
        values = self.numbers_of(column, at)
        if words == [column]:
            return values
        return [logarithm(value, f"line {line}, column {short(column)}") for (line, _), value in zip(self.rows, values)]

    def blocks(self):
        """The blocks, the rows of Z', and a name for each of these: the block's column, the group, and the effect where a group has several."""
        places = [at for at, _ in self.head["random"]]
        self.groups = [[cell for _, cell in self.cells_under(column, at)] for column, at in zip(self.factors, places)]
        self.levels = [list(dict.fromkeys(groups)) for groups in self.groups]
        self.effects = []
        check_size(sum(len(groups) * len(words) for groups, words in zip(self.levels, self.terms)),
                   "random effects (groups times effects, all blocks)", MOST_EFFECTS, places[-1])
        self.about["blocks"], self.about["zt"] = [], []
        for at, words, column, groups, levels in zip(places, self.terms, self.factors, self.groups, self.levels):
            block, rows = block_rows({"group": groups, "z": self.rows_of(words, at)})
            self.about["blocks"].append(block)
            self.about["zt"] += rows
            self.effects += [f"{column} {group}" + (f" {word}" if len(words) > 1 else "") for group in levels for word in words]

    def job(self):
        return job_bytes(self.about)


def sheet_beside(file, job, data):
    """The text that has a job's name but for .txt, and what is to be said of it. It is of use where it makes this job, theta, n_agq, limit, version
    and start aside."""
    text = Path(file).with_suffix(".txt")
    if not text.is_file():
        return None, None
    try:
        sheet = Sheet(decoded(text.read_bytes()))
    except (Fault, OSError) as fault:
        return None, f"{text} is no text of a job, so no names come from it: {fault}"
    if job_bytes({**sheet.about, "theta": job.theta, "n_agq": job.n_agq, "limit": job.limit, "version": job.version, "start": job.start}) != data:
        return None, f"{text} makes another job, so no names come from it"
    return sheet, None
