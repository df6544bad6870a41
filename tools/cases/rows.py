"""Arguments that meet every row of the tables of exp and ln (tools/cases/elementary.py), chosen so that a wrong row changes a printed bit."""
import math, random, struct

SIGN = 1 << 63


def moved(entry, step):
    """The pattern of the entry's double plus step."""
    return struct.unpack(">Q", struct.pack(">d", struct.unpack(">d", struct.pack(">Q", entry))[0] + step))[0]


def exp_wrongs(table, row):
    """Places with what would be wrong there: the tail with the other sign, the scale one unit up and down."""
    tail, scale = 2 * row, 2 * row + 1
    wrong = [(scale, table[scale] + 1), (scale, table[scale] - 1)]
    return wrong + [(tail, table[tail] ^ SIGN)] if table[tail] % SIGN else wrong


def ln_wrongs(table, row):
    """1/c and the first part of c one unit up and down, ln c by 2^-53, the second part of c with the other sign."""
    inverse, log, upper, rest = range(4 * row, 4 * row + 4)
    wrong = [(at, table[at] + step) for at in (inverse, upper) for step in (1, -1)] + [(log, moved(table[log], step)) for step in (2.0**-53, -2.0**-53)]
    return wrong + [(rest, table[rest] ^ SIGN)] if table[rest] % SIGN else wrong


def exp_argument(r, row):
    """128·x/ln 2 is near a whole number that leaves `row`."""
    return (128 * r.randint(-2, 2) + row + r.uniform(-0.5, 0.5)) * math.log(2.0) / 128


def ln_argument(r, row):
    """A power of 2 times a z in the part of [0.6875, 1.375) that `row` is for."""
    z = 0.6875 + (row + r.random()) / 256 if row < 80 else 1.0 + (row - 80 + r.random()) / 128
    return z * 2.0 ** r.choice((-1, 0, 1))


def seen(function, table, x, wrong):
    """The function's value at x is another where the table is wrong so."""
    at, entry = wrong
    right, value = table[at], function(x)
    table[at] = entry
    try:
        return function(x) != value
    finally:
        table[at] = right


def best(function, table, draw, r, row, left):
    """Of drawn arguments the one that tells most of what is left, and what it tells."""
    found = ([], None)
    for turn in range(6000):
        x = draw(r, row)
        told = [wrong for wrong in left if seen(function, table, x, wrong)]
        found = max(found, (told, x), key=lambda pair: len(pair[0]))
        if found[0] and turn > 60 or len(found[0]) == len(left):
            break
    return found


def cover(function, table, wrongs, draw, chosen):
    """Adds to the chosen arguments until every row's wrongs are told; those that no argument told."""
    untold = []
    for row in range(128):
        r = random.Random(row)
        left = [wrong for wrong in wrongs(table, row) if not any(seen(function, table, x, wrong) for x in chosen)]
        while left:
            told, x = best(function, table, draw, r, row, left)
            if not told:
                untold += left
                break
            chosen.append(x)
            left = [wrong for wrong in left if wrong not in told]
    return untold


def arguments(exp, exp_table, ln, ln_table):
    """The arguments, and the places of the entries that could be wrong unseen."""
    chosen = []
    untold = cover(ln, ln_table, ln_wrongs, ln_argument, chosen), cover(exp, exp_table, exp_wrongs, exp_argument, chosen)
    return chosen, untold
