#!/usr/bin/env python3
"""usage: examples/make.py [FOLDER]
Writes the texts of examples/ and their jobs, and simulated.txt, into this folder or another. The data are made up: each text tells its seed, and the truth that its responses were drawn from."""
import math, random, sys
from pathlib import Path

sys.dont_write_bytecode = True
HERE = Path(__file__).resolve().parent
sys.path.insert(0, str(HERE.parent / "tools" / "glmm"))
from kinds import bell
from sheet import Sheet

WAFERS = """\
# Weak cells per wafer: a lot of twelve wafers, each probed in four rings; radius is the ring's, as a part of the wafer's.
# Made up by examples/make.py, seed {seed}: logit = -4.6 + 1.5 radius + a wafer's own, of spread 0.5, but 1.4 for W07.
# Of the thetas 0, 0.05 .. 2 the Laplace deviance is lowest at 0.55.
family: binomial
link: logit
response: weak / cells
fixed: 1 radius
random: 1 | wafer
theta: 0.55
"""

DEFECTS = """\
# Solder defects on boards of ten lots; a board is inspected on part of its area (in square centimetres), reflow is in degrees above 240.
# Made up by examples/make.py, seed {seed}: log mean = log area - 3.2 + 0.05 reflow + a lot's own, of spread 0.4.
# Of the thetas 0, 0.05 .. 2 the Laplace deviance is lowest at 0.45.
family: poisson
link: log
response: defects
offset: log area
fixed: 1 reflow
random: 1 | lot
theta: 0.45
"""

CARDS = """\
# Single cells, weak or not, from three wafers, each probed by two probe cards: two blocks, and the joint rule's quadrature.
# Made up by examples/make.py, seed {seed}: logit = -1 + 0.8 rim + a wafer's own, of spread 1, + a card's own, of spread 0.6.
# Of the thetas 0, 0.2 .. 2 of either block the Laplace deviance (n_agq 1) is lowest at 0.8 and 0.6. With n_agq 11 the deviance is another, no measure
# for choosing theta; of the 11 points a dimension that are wished, five random effects leave room for 5.
family: binomial
link: logit
response: weak
fixed: 1 ring=rim
random: 1 | wafer
random: 1 | card
theta: 0.8 0.6
n_agq: 11
"""

DARK = """\
# Dark current in nanoampere at five temperatures (in units of ten degrees from 25), six wafers: each has its own level and its own slope.
# Made up by examples/make.py, seed {seed}: current = 2 + 0.5 warm + (a wafer's own, of spread 0.6) + (its own, of spread 0.2) warm + an error of spread 0.3.
# theta is the lower triangle of the block, column by column: level, slope along with level, slope.
# Of a grid of 0.1, 0.1 and 0.05 the Laplace deviance is lowest there.
family: gaussian
link: identity
response: current
fixed: 1 warm
random: 1 warm | wafer
theta: 0.7 -0.1 0.2
"""

CELLS = """\
# Dark current of single cells in picoampere, eight wafers, six temperatures (in units of ten degrees from 25): above 0, and skewed.
# Made up by examples/make.py, seed {seed}: Gamma with shape 4 (a dispersion of 0.25), log mean = 1 + 0.5 warm + a wafer's own, of spread 0.4.
# Of the thetas 0, 0.05 .. 1.5 the Laplace deviance is lowest at 0.4.
family: gamma
link: log
response: current
fixed: 1 warm
random: 1 | wafer
theta: 0.4
"""

FLASHES = """\
# Flashes of light that ten detectors saw, of 40 shown to each at six levels of power (in decibel above one picowatt).
# The detection threshold is the level at which half are seen: minus the first beta over the second.
# Made up by examples/make.py, seed {seed}: probit = -3 + 0.5 level + a detector's own, of spread 0.6; so the threshold is 6, and a detector's own has a spread of 1.2.
# Of the thetas 0, 0.05 .. 2 the Laplace deviance is lowest at 0.7.
family: binomial
link: probit
response: seen / shown
fixed: 1 level
random: 1 | detector
theta: 0.7
"""

SIMULATED = """\
# Twelve lots simulated from the fit of wafers.txt, for ./fit --many: a row for each lot, weak cells / cells of each ring of each wafer, in the order of wafers.txt.
# Made up by examples/make.py, seed {seed}: logit = -4.29 + 1.43 radius + a wafer's own, of spread 0.55.
"""


def chance(eta):
    return 1 / (1 + math.exp(-eta))


def normal_chance(eta):
    return math.erfc(-eta / math.sqrt(2)) / 2


def hits(r, cells, chance_of_one):
    return sum(r.random() < chance_of_one for _ in range(cells))


def poisson(r, mean):
    """A draw, by inversion."""
    left, count, term = r.random(), 0, math.exp(-mean)
    while left >= term and count < 1000:
        left, count = left - term, count + 1
        term *= mean / count
    return count


def skewed(r, mean, shape):
    """A draw of Gamma: the sum of so many waiting times."""
    return sum(-math.log(1 - r.random()) for _ in range(shape)) * mean / shape


RINGS = ((0.2, 80), (0.5, 160), (0.8, 240), (0.95, 120))  # radius and cells


def wafers(r):
    yield "wafer", "cells", "weak", "radius"
    for wafer in range(1, 13):
        own = 1.4 if wafer == 7 else 0.5 * bell(r)
        for radius, cells in RINGS:
            yield f"W{wafer:02}", cells, hits(r, cells, chance(-4.6 + 1.5 * radius + own)), radius


def defects(r):
    yield "lot", "board", "area", "reflow", "defects"
    for lot in range(1, 11):
        own = 0.4 * bell(r)
        for board in range(1, 5):
            area, reflow = r.choice([60, 75, 120]), r.randint(0, 12)
            yield f"L{lot:02}", board, area, reflow, poisson(r, area * math.exp(-3.2 + 0.05 * reflow + own))


def cards(r):
    yield "wafer", "card", "ring", "weak"
    of_card = {card: 0.6 * bell(r) for card in "AB"}
    for wafer in range(1, 4):
        own = bell(r)
        for card, its in of_card.items():
            for cell in range(12):
                ring = "rim" if cell % 3 == 0 else "inner"
                yield f"W{wafer:02}", card, ring, hits(r, 1, chance(-1 + 0.8 * (ring == "rim") + own + its))


def dark(r):
    yield "wafer", "warm", "current"
    for wafer in range(1, 7):
        level, slope = 0.6 * bell(r), 0.2 * bell(r)
        for warm in range(-2, 3):
            yield f"W{wafer:02}", warm, f"{2 + level + (0.5 + slope) * warm + 0.3 * bell(r):.2f}"


def cells(r):
    yield "wafer", "warm", "current"
    for wafer in range(1, 9):
        own = 0.4 * bell(r)
        for warm in range(-2, 4):
            yield f"W{wafer:02}", warm, f"{skewed(r, math.exp(1 + 0.5 * warm + own), 4):.2f}"


def flashes(r):
    yield "detector", "level", "shown", "seen"
    for detector in range(1, 11):
        own = 0.6 * bell(r)
        for level in (1, 3, 5, 7, 9, 11):
            yield f"D{detector:02}", level, 40, hits(r, 40, normal_chance(-3 + 0.5 * level + own))


def simulated(r):
    for _ in range(12):
        lot = []
        for _ in range(12):
            own = 0.55 * bell(r)
            lot += [f"{hits(r, cells, chance(-4.29 + 1.43 * radius + own))}/{cells}" for radius, cells in RINGS]
        yield lot


def table(rows):
    rows = [list(map(str, row)) for row in rows]
    widths = [max(map(len, column)) for column in zip(*rows)]
    return "".join("  ".join(cell.ljust(width) for cell, width in zip(row, widths)).rstrip() + "\n" for row in rows)


def main():
    folder = Path(sys.argv[1]) if len(sys.argv) > 1 else HERE
    for rows, head, seed in ((wafers, WAFERS, 1), (defects, DEFECTS, 2), (cards, CARDS, 4), (dark, DARK, 4), (cells, CELLS, 3), (flashes, FLASHES, 5)):
        text = head.format(seed=seed) + "\n" + table(rows(random.Random(seed)))
        (folder / f"{rows.__name__}.txt").write_text(text)
        (folder / f"{rows.__name__}.job").write_bytes(Sheet(text).job())
    (folder / "simulated.txt").write_text(SIMULATED.format(seed=7) + table(simulated(random.Random(7))))


main()
