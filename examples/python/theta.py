#!/usr/bin/env python3
"""usage: theta.py SVG JOB PROGRAM [WORD ..]
Draws the Laplace deviance of a job with one theta, over theta from 0 to 2, as SVG. PROGRAM, with the words before JOB that its run needs (an emulator), is
examples/c/wafers, which prints the deviance at each theta; tools/examples builds it and calls this. Standard library only."""
import subprocess, sys
from pathlib import Path

WIDTH, HEIGHT, LEFT, RIGHT, TOP, BOTTOM = 640, 400, 70, 20, 30, 50
THETAS = [i / 40 for i in range(81)]


def deviances(job, program):
    words = [*program, job, *map(str, THETAS)]
    lines = subprocess.run(words, check=True, stdout=subprocess.PIPE, text=True).stdout.splitlines()
    return [float(line.split()[1]) for line in lines]


def drawing(values):
    low, high = min(values), max(values)

    def place(theta, value):
        x = LEFT + (WIDTH - LEFT - RIGHT) * theta / THETAS[-1]
        y = TOP + (HEIGHT - TOP - BOTTOM) * (high - value) / (high - low)
        return f"{x:.1f},{y:.1f}"

    best = values.index(low)
    points = " ".join(map(place, THETAS, values))
    x, y = place(THETAS[best], low).split(",")
    return f"""<svg xmlns="http://www.w3.org/2000/svg" width="{WIDTH}" height="{HEIGHT}" font-family="sans-serif" font-size="13">
<rect width="100%" height="100%" fill="white"/>
<path d="M{LEFT} {TOP}V{HEIGHT - BOTTOM}H{WIDTH - RIGHT}" fill="none" stroke="black"/>
<polyline points="{points}" fill="none" stroke="steelblue" stroke-width="2"/>
<circle cx="{x}" cy="{y}" r="4" fill="firebrick"/>
<text x="{x}" y="{float(y) - 10:.1f}" text-anchor="middle">lowest, {low:.3f}, at theta {THETAS[best]:g}</text>
<text x="{LEFT - 6}" y="{TOP + 4}" text-anchor="end">{high:.1f}</text>
<text x="{LEFT - 6}" y="{HEIGHT - BOTTOM}" text-anchor="end">{low:.1f}</text>
<text x="{LEFT}" y="{HEIGHT - BOTTOM + 18}" text-anchor="middle">0</text>
<text x="{WIDTH - RIGHT}" y="{HEIGHT - BOTTOM + 18}" text-anchor="middle">{THETAS[-1]:g}</text>
<text x="{(WIDTH + LEFT) / 2:.0f}" y="{HEIGHT - 12}" text-anchor="middle">theta: the spread between wafers</text>
<text x="{LEFT}" y="{TOP - 12}" text-anchor="middle">deviance</text>
</svg>
"""


if sys.argv[1:2] in (["-h"], ["--help"]):
    print(__doc__)
    sys.exit()
if len(sys.argv) < 4:
    print(__doc__, file=sys.stderr)
    sys.exit(2)
Path(sys.argv[1]).write_text(drawing(deviances(sys.argv[2], sys.argv[3:])))
