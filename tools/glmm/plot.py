"""A fitted job as a picture: each group's effects with their 95 % intervals, sorted (a caterpillar plot, a panel for each effect of each block), and the observed
responses over the fitted means. SVG, with fixed sizes of text, no script and nothing from elsewhere; the same numbers and names give the same bytes."""
import html, math, re, textwrap
from pathlib import Path
from form import FAMILIES, LINKS
from spread import WALD, effect_spread
from told import Names, counted, decimal, understood, warnings

PLOT, GAP, EDGE, HEAD, FOOT, TICK = 250, 34, 18, 30, 34, 11
CLEAR, VAGUE, SPOT, GRID, INK = "#1d5a96", "#8a94a0", "#a34a1c", "#dfe3e8", "#222"
LARGEST = 1.7e308
INVALID = re.compile("[^\t\n\r\x20-\ud7ff\ue000-\ufffd\U00010000-\U0010ffff]")  # what XML can't hold


class Nothing(Exception):
    """A job that was not fitted has no picture."""


# ---- the parts of an SVG

def safe(words):
    return html.escape(INVALID.sub("?", str(words)))


def text(x, y, words, anchor="start", more=""):
    return f'<text x="{x:.1f}" y="{y:.1f}" text-anchor="{anchor}"{more}>{safe(words)}</text>'


def path(places, colour, more=""):
    return f'<path d="{places}" stroke="{colour}" fill="none"{more}/>'


def cut(words, most):
    """Too long a name without its middle: names often differ in their ends."""
    return words if len(words) <= most else words[:most // 2] + "\u2026" + words[len(words) - (most - 1) // 2:]


class Axis:
    """From numbers to places: `start` is that of the lowest number, and `length` may be negative. Halves are taken, so that nothing overflows."""

    def __init__(self, values, start, length):
        values = [v for v in values if math.isfinite(v)] or [0.0]
        low, high = min(values), max(values)
        size = max(abs(low), abs(high))
        pad = max(0.05 * (high / 2 - low / 2) * 2, 1e-4 * size) or 1.0
        self.low, self.high = max(low - pad, -LARGEST), min(high + pad, LARGEST)
        self.start, self.length = start, length

    def at(self, value):
        return self.start + self.length * ((value / 2 - self.low / 2) / (self.high / 2 - self.low / 2))

    def ticks(self, most=7):
        """Round numbers within the axis, each with its words: steps of 1, 2 or 5 times a power of ten."""
        least = (self.high / 2 - self.low / 2) / most * 2
        power = int(f"{least:e}".split("e")[1])
        step = next(float(f"{m}e{power}") for m in (1, 2, 5, 10, 20) if float(f"{m}e{power}") >= least)
        power = int(f"{step:e}".split("e")[1])
        marks = [i * step for i in range(math.ceil(self.low / step), math.floor(self.high / step) + 1)]
        return [(mark, f"{mark:.{max(0, -power)}f}" if -5 < power < 6 else f"{mark:.4g}") for mark in marks]


# ---- panels: each is drawn at a corner, with room for names on its left

class Caterpillar:
    """An effect of a block: a line for each group, the largest on top."""

    def __init__(self, title, rows):
        self.title = title
        self.rows = sorted(rows, key=lambda row: (-row[1] if math.isfinite(row[1]) else math.inf))
        self.names = [name for name, _, _ in rows]
        self.pitch = 16
        self.height = len(rows) * self.pitch + 8

    def stretch(self, height):
        """Up to this height, but not too far apart."""
        self.pitch = max(self.pitch, min(32, (height - 8) / len(self.rows)))
        self.height = round(len(self.rows) * self.pitch + 8)

    def drawn(self, left, top):
        ends = [(b - WALD * sd, b + WALD * sd) for _, b, sd in self.rows]
        axis = Axis([0.0, *(b for _, b, _ in self.rows), *(end for pair in ends for end in pair)], left, PLOT)
        out = [path(f"M{axis.at(mark):.1f} {top}v{self.height}", GRID) for mark, _ in axis.ticks()]
        out += [text(axis.at(mark), top + self.height + 15, words, "middle") for mark, words in axis.ticks()]
        out.append(path(f"M{axis.at(0.0):.1f} {top}v{self.height}", INK, ' stroke-dasharray="3 3"'))
        for i, ((name, b, _), pair) in enumerate(zip(self.rows, ends)):
            out.append(self.line(axis, top + 4 + self.pitch * (i + 0.5), left, name, b, pair))
        return out

    def line(self, axis, y, left, name, b, pair):
        label = text(left - 8, y + 4, cut(name, 16), "end")
        if not math.isfinite(b):
            return label
        known = all(map(math.isfinite, pair))
        colour = CLEAR if known and (pair[0] > 0 or pair[1] < 0) else VAGUE
        bar = path(f"M{axis.at(pair[0]):.1f} {y:.1f}H{axis.at(pair[1]):.1f}", colour, ' stroke-width="2"') if known else ""
        said = f"{name}: {decimal(b)}, {decimal(pair[0])} to {decimal(pair[1])}"
        return f'{label}<g><title>{safe(said)}</title>{bar}<circle cx="{axis.at(b):.1f}" cy="{y:.1f}" r="3.5" fill="{colour}"/></g>'


class Scatter:
    """Each response over its fitted mean; on the line they are equal."""
    title = "observed over fitted means"
    height = PLOT
    names = []

    def __init__(self, rows):
        self.rows = [row for row in rows if math.isfinite(row[1]) and math.isfinite(row[2])]

    def stretch(self, height):
        """A square stays one."""

    def drawn(self, left, top):
        both = [value for _, mu, y, _ in self.rows for value in (mu, y)]
        across, up = Axis(both, left, PLOT), Axis(both, top + PLOT, -PLOT)
        out = []
        for mark, words in across.ticks():
            out += [path(f"M{across.at(mark):.1f} {top}v{PLOT}M{left} {up.at(mark):.1f}h{PLOT}", GRID),
                    text(across.at(mark), top + PLOT + 15, words, "middle"), text(left - 8, up.at(mark) + 4, words, "end")]
        out.append(path(f"M{left} {top + PLOT}l{PLOT} {-PLOT}", INK, ' stroke-dasharray="3 3"'))
        out += [f'<circle cx="{across.at(mu):.1f}" cy="{up.at(y):.1f}" r="{radius:.1f}" fill="{SPOT}" fill-opacity="0.45" stroke="{SPOT}" stroke-opacity="0.8">'
                f"<title>{safe(f'{name}: observed {decimal(y)}, fitted {decimal(mu)}')}</title></circle>" for name, mu, y, radius in self.rows]
        return [*out, text(left + PLOT, top + PLOT + 29, "fitted", "end", ' fill="#555"'), text(left - 8, top - 10, "observed", "end", ' fill="#555"')]


def caterpillars(job, lists, names):
    """A panel for each effect of each block."""
    place, spread = 0, effect_spread(job, lists)
    for b, (m, k) in enumerate(job.blocks):
        column, effects, groups = names.blocks[b]
        for e in range(k):
            title = f"b of block {b}" if column is None else f"b of {column}"
            if k > 1 or effects and effects[0] != "1":
                title += f", effect {effects[e] if effects else e}"
            places = [place + g * k + e for g in range(m)]
            yield Caterpillar(title, [(groups[g] if groups else str(g), lists["b"][at], spread[at]) for g, at in enumerate(places)])
        place += m * k


def scatter(job, lists, names):
    most = max([w for w in job.weights or [] if w > 0], default=1.0)
    radii = [1.5 + 4.5 * math.sqrt(max(w, 0.0) / most) for w in job.weights] if job.weights else [3.0] * job.n
    return Scatter(list(zip(names.rows, lists["mu"], job.y, radii)))


# ---- the whole

def headings(job, answer, file, count):
    """The title, and a line below it."""
    name = Path(file).stem + ": " if file not in (None, "", "-") else ""
    thetas = " ".join(map(decimal, job.theta[:6])) + (" .." if len(job.theta) > 6 else "")
    order = answer.counts["order"]
    kind = "Laplace" if order == 1 else f"quadrature of order {order}"
    return (f"{name}{FAMILIES[job.family]}, {LINKS[job.link]} link",
            f"{counted(job.n, 'response')}, {counted(job.q, 'random effect')}, theta {thetas}, deviance {decimal(answer.lists['deviance'][0])} ({kind})"
            + (f". {counted(count, 'warning')}: see the table" if count else ""))


def caption(job):
    return ("A point is a group's b; its bar is b \u00b1 1.959964 sd, the 95 % interval of b given beta, theta and phi: "
            "the variance is the diagonal of \u039bA\u207b\u00b9\u039b', A = \u039b'Z'WZ\u039b + I with the working weights W at the fitted means "
            "(lme4: ranef with condVar = TRUE). Blue bars leave out 0. Each panel is sorted. "
            "On the dashed line of the last panel the observed is the fitted mean" + ("; a circle's size goes with its weight." if job.weights else "."))


def composed(panels, title, below, said):
    """The panels in rows of two or three, under their title."""
    side = 2 if len(panels) in (1, 2, 4) else 3
    room = max(56, 8 + round(6.4 * max(min(len(name), 16) for panel in panels for name in [*panel.names, ""])))
    width = 2 * EDGE + side * (room + PLOT) + (side - 1) * GAP
    out = [text(EDGE, 26, title, more=' font-size="15" font-weight="bold"')]
    y = 28
    for line in textwrap.wrap(below, int((width - 2 * EDGE) / 6)):
        y += 15
        out.append(text(EDGE, y, line, more=' fill="#555"'))
    y += 14
    for start in range(0, len(panels), side):
        row = panels[start:start + side]
        tall = max(panel.height for panel in row)
        for i, panel in enumerate(row):
            panel.stretch(tall)
            left, top = EDGE + room + i * (room + PLOT + GAP), y + HEAD
            frame = path(f"M{left} {top}h{PLOT}v{panel.height}h-{PLOT}z", "#aab")
            out += [text(left, top - 10, cut(panel.title, 40), more=' font-weight="bold"'), frame, *panel.drawn(left, top)]
        y += HEAD + tall + FOOT
    for line in textwrap.wrap(said, int((width - 2 * EDGE) / 5.7)):
        y += 15
        out.append(text(EDGE, y, line, more=' fill="#555"'))
    return width, y + EDGE, out


def draw(lines, data, file=None, sheet=None):
    """The SVG of what was printed for the job `data`; names come from `sheet`, else from the text beside `file`, where there is one."""
    answer, job, sheet = understood(lines, data, file, sheet)
    if not answer.lists:
        raise Nothing("the job was not fitted, so there is nothing to draw")
    names = Names(job, sheet)
    panels = [*caterpillars(job, answer.lists, names), scatter(job, answer.lists, names)]
    title, below = headings(job, answer, file, len(list(warnings(job, answer.counts, answer.lists, names))))
    width, height, parts = composed(panels, title, below, caption(job))
    return (f'<svg xmlns="http://www.w3.org/2000/svg" width="{width}" height="{height}" viewBox="0 0 {width} {height}" '
            f'font-family="sans-serif" font-size="{TICK}" fill="{INK}">\n'
            f'<title>{safe(title)}</title>\n<rect width="100%" height="100%" fill="#fff"/>\n' + "\n".join(parts) + "\n</svg>\n")
