#!/usr/bin/env python3
"""usage: model.py > crates/cases_model/stdout
       model.py --stdin > crates/cases_model/stdin
What `cases_model` must print, worked out apart from the Rattle code: codes, limits, ranges and numbers from document 01 ("What the port carries",
"Numbers of an answer", "The job and the program"), the places of the work slices by laying the pieces of the design's table one after another; and the calls that it is fed."""
import struct, sys
from itertools import accumulate

MOST = 2 ** 64 - 1
# the calls by their codes
CALLS = ["family", "link", "limit", "shape", "sizes", "refused", "unfitted", "fitted", "items", "start", "end"]
calls, said = [], []  # the calls as they are fed, and behind them the words of the lines whose calls stand in the program
FAMILIES = ["binomial", "Poisson", "Gaussian", "Gamma"]
LINKS = ["logit", "probit", "cloglog", "log", "identity", "inverse", "sqrt"]


def line(*words):
    if "--stdin" not in sys.argv:
        print(*[int(w) if isinstance(w, bool) else w for w in words])


def named(*words):
    """The words that a line begins with, behind their length."""
    text = " ".join(map(str, words)).encode()
    return struct.pack(">Q", len(text)) + text


def call(name, words, *arguments):
    """The words that the line begins with, the code, and what the call reads, in words of eight bytes."""
    calls.append(named(*words) + struct.pack(">Q", CALLS.index(name)) + b"".join(struct.pack(">d" if isinstance(a, float) else ">Q", a) for a in arguments))


def hexed(x):
    return "7FF8000000000000" if x != x else struct.pack(">d", x).hex().upper()


def coded(kind, names, codes):
    for c in codes:
        call(kind, [kind, c], c)
        line(kind, c, *([names[c], names.index(names[c])] if c < len(names) else ["none"]))


# ---- shapes: a list of (m, k), one for each block
def q_of(blocks):
    return sum(m * k for m, k in blocks)


def triangle(k):
    return sum(range(1, k + 1))


def good_shape(blocks):
    return 1 <= len(blocks) <= 8 and all(1 <= k <= 8 and m >= 1 for m, k in blocks) and 1 <= q_of(blocks) <= 32


def cells(count, blocks):
    """A shape as it is fed: the count, eight of m and eight of k; behind the blocks stand numbers that nothing may look at."""
    behind = {1: [0, 99, 0, 0, 0, 0, 7], 4: [5] * 4}.get(count, [1] * 8)
    return [count, *([m for m, _ in blocks] + behind)[:8], *([k for _, k in blocks] + behind)[:8]]


def shape(name, blocks):
    call("shape", name, *cells(len(blocks), blocks))
    if not good_shape(blocks):
        return line(*name, 0)
    begins = [w for i in range(len(blocks)) for w in (q_of(blocks[:i]), sum(triangle(k) for _, k in blocks[:i]))]
    line(*name, 1, q_of(blocks), sum(triangle(k) for _, k in blocks), *begins)


def sizes(n, p, rows, entries, limit, blocks):
    name = ["sizes", n, p, rows, entries, "none" if limit is None else limit]
    call("sizes", name, MOST if limit is None else limit, n, p, rows, entries, *cells(len(blocks), blocks))
    good = n in range(1, 513) and p in range(1, 17) and good_shape(blocks) and rows == q_of(blocks) and entries <= 8192
    line(*name, good and (limit is None or limit <= 1000))


# ---- answers
def answer(number, deviance=0.0, phi=0.0, order=0, why=0, flag=False, iterations=0, account=(0,) * 8):
    return [number, hexed(deviance), hexed(phi), order, why, flag, iterations, *account]


def fitted(*values):
    call("fitted", ["fitted"], *values)
    line("fitted", *answer(0, *values, WORK))


def summed(*counts):
    said.append(named("sum"))
    line("sum", *counts)


# ---- work slices: each piece begins where the one before it ends
def begins(pieces):
    return [0] + list(accumulate(pieces))[:-1]


# pieces that no function names: what begins a slice, what stands right behind a named piece, and a row without a tenant
UNNAMED = {"rows": [0, 9], "matrices": [0, 8, 9], "terms": []}


def places(n, p, q):
    rows = [n] * 11
    matrices = [q * q, q * q, q * p, p * p] + [q] * 6 + [p, 0]
    terms = [q * q, n, n, q * p, p * p, q]
    room = [16 * n, 3 * q ** 2 + 4 * p ** 2 + 2 * q * p + 12 * (q + p), 7000]
    for name, pieces, length in zip(["rows", "matrices", "terms"], [rows, matrices, terms], room):
        assert sum(pieces) <= length
        said.append(named(name))
        line(name, *(b for i, b in enumerate(begins(pieces)) if i not in UNNAMED[name]), length)


coded("family", FAMILIES, [0, 1, 2, 3, 4, MOST])
coded("link", LINKS, [0, 1, 2, 3, 4, 5, 6, 7, 8, MOST])
for name in LINKS:
    call("limit", ["limit"], LINKS.index(name))
    line("limit", name, name == "inverse", 1000 if name == "inverse" else 100, 0, 1, 1000)

THREE = [(12, 1), (2, 3), (3, 2)]
LARGE, SMALL = THREE + [(1, 8)], [(1, 1)]
for m, k in [(1, 1), (32, 1), (4, 8), (2, 3), (33, 1), (0, 1), (1, 0), (1, 9), (2 ** 63, 1), (2 ** 63, 2), (2 ** 63, 8), (MOST, 8)]:
    shape(["block", m, k], [(m, k)])
for count in [0, 8, 9]:
    shape(["singles", count], [(1, 1)] * count)
call("shape", ["singles", MOST], *cells(MOST, []))
line("singles", MOST, 0)
for last in [(1, 1), (1, 8), (3, 3), (0, 1), (1, 9)]:
    shape(["four", *last], THREE + [last])

sizes(1, 1, 1, 0, 0, SMALL)
sizes(0, 1, 1, 0, 0, SMALL)
sizes(1, 0, 1, 0, 0, SMALL)
sizes(1, 1, 0, 0, 0, SMALL)
sizes(1, 1, 0, 0, 0, [])
sizes(512, 16, 32, 8192, 1000, LARGE)
sizes(512, 16, 32, 8192, None, LARGE)
sizes(513, 16, 32, 8192, 1000, LARGE)
sizes(512, 17, 32, 8192, 1000, LARGE)
sizes(512, 16, 31, 8192, 1000, LARGE)
sizes(512, 16, 33, 8192, 1000, LARGE)
sizes(512, 16, 33, 8192, 1000, THREE + [(3, 3)])
sizes(512, 16, 32, 8193, 1000, LARGE)
sizes(512, 16, 32, 8192, 1001, LARGE)

# the refusals in the order of the table, then the ends
for code, number in enumerate([1, 8, 2, 7, 6, 3, 4, 9, 27]):
    call("refused", ["refused"], code)
    line("refused", number, *answer(number))
WORK = (241, 1205, 4820, 14461, 2400, 1000, 220, 1200)
for code, number in enumerate([10, 11, 12, 13]):
    call("unfitted", ["unfitted"], code)
    line("unfitted", number, *answer(number, account=WORK))
fitted(97.5, 1.0, 1, 6, True, 5)
fitted(float("inf"), 0.1, 11, 0, False, 1000)
fitted(-0.0, float("nan"), 3, 0, True, 0)

coded("start", ["usual", "trials"], [0, 1, 2, MOST])
for number in [0, 1, 9, 10, 11, 12, 13, 14, 27, MOST]:
    call("end", ["end", number], number)
    line("end", number, 10 <= number <= 13)

call("items", ["items"], 6561)
line("items", *[0] * 8, *[0, 0, 0, 6561, 0, 0, 0, 0], *[1, 0, 0, 0, 0, 0, 0, 0], *[0, 1, 0, 0, 0, 0, 0, 0])
summed(*[a + b for a, b in zip(WORK, (3, 50, 700, 11000, 500, 30, 120, 50))])
summed(*[MOST] * 8)

places(1, 1, 1)
places(512, 16, 32)
places(7, 3, 5)
places(100, 16, 2)
if "--stdin" in sys.argv:
    sys.stdout.buffer.write(b"".join([*calls, struct.pack(">Q", 0), *said]))  # an empty word ends the calls
