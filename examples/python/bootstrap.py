#!/usr/bin/env python3
"""usage: bootstrap.py SVG JOB PROGRAM [WORD ..]
Draws how far the spread between wafers is sure, as SVG: the estimates of lots that were simulated from the fit of a job, counted in bars. PROGRAM, with the words
before JOB that its run needs (an emulator), is examples/c/bootstrap, which simulates the lots and fits each again by glmm_fit_many; tools/examples builds it and
calls this. Standard library only."""
import re, subprocess, sys
from pathlib import Path

WIDTH, HEIGHT, LEFT, RIGHT, TOP, BOTTOM = 640, 400, 50, 20, 50, 50
BARS, HIGHEST = 30, 1.5  # theta from 0 on


def estimates(job, program):
    """The estimate of the job, its interval, and those of the lots."""
    lines = subprocess.run([*program, job], check=True, stdout=subprocess.PIPE, text=True).stdout
    theta, low, high = map(float, re.search(r"between wafers ([\d.]+); .* 95 % between ([\d.]+) and ([\d.]+),", lines).groups())
    return theta, low, high, [float(words) for words in re.findall(r"(?m)^lot \d+ ([\d.]+)$", lines)]


def across(theta):
    return LEFT + (WIDTH - LEFT - RIGHT) * theta / HIGHEST


def up(count, most):
    return HEIGHT - BOTTOM - (HEIGHT - TOP - BOTTOM) * count / most


def bars(lots):
    """How many lots have their estimate in each part of the thetas."""
    places = [min(int(theta / HIGHEST * BARS), BARS - 1) for theta in lots]
    return [places.count(place) for place in range(BARS)]


def bar(place, count, most):
    left, right = across(HIGHEST * place / BARS), across(HIGHEST * (place + 1) / BARS)
    return f'<rect x="{left + 0.5:.1f}" y="{up(count, most):.1f}" width="{right - left - 1:.1f}" height="{HEIGHT - BOTTOM - up(count, most):.1f}" fill="steelblue"/>'


def drawing(theta, low, high, lots):
    counts = bars(lots)
    most, floor = max(counts), HEIGHT - BOTTOM
    return f"""<svg xmlns="http://www.w3.org/2000/svg" width="{WIDTH}" height="{HEIGHT}" font-family="sans-serif" font-size="13">
<rect width="100%" height="100%" fill="white"/>
{chr(10).join(bar(place, count, most) for place, count in enumerate(counts) if count)}
<path d="M{LEFT} {TOP}V{floor}H{WIDTH - RIGHT}" fill="none" stroke="black"/>
<path d="M{across(theta):.1f} {TOP - 6}V{floor}" stroke="firebrick" stroke-width="2"/>
<path d="M{across(low):.1f} {floor + 5}H{across(high):.1f}" stroke="firebrick" stroke-width="4"/>
<text x="{across(theta):.1f}" y="{TOP - 12}" text-anchor="middle">the lot's own estimate, {theta:.2f}; 95 % of {len(lots)} simulated lots: {low:.2f} to {high:.2f}</text>
<text x="{LEFT - 6}" y="{TOP + 4}" text-anchor="end">{most}</text>
<text x="{LEFT - 6}" y="{floor}" text-anchor="end">0</text>
<text x="{LEFT}" y="{floor + 20}" text-anchor="middle">0</text>
<text x="{WIDTH - RIGHT}" y="{floor + 20}" text-anchor="end">{HIGHEST:g}</text>
<text x="{(WIDTH + LEFT) / 2:.0f}" y="{HEIGHT - 12}" text-anchor="middle">theta of each simulated lot: the spread between its wafers</text>
</svg>
"""


if sys.argv[1:2] in (["-h"], ["--help"]):
    print(__doc__)
    sys.exit()
if len(sys.argv) < 4:
    print(__doc__, file=sys.stderr)
    sys.exit(2)
Path(sys.argv[1]).write_text(drawing(*estimates(sys.argv[2], sys.argv[3:])))
