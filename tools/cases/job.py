#!/usr/bin/env python3
"""usage: job.py > crates/cases_job/stdout
       job.py --stdin > crates/cases_job/stdin
What `cases_job` must print, by the Python reader of jobs (tools/glmm/reader.py) and document 01's lines, and the jobs that it is given:
case J, L 1000 and 1001, and every kind of damage to two small jobs in both versions, each behind one more than its length in eight bytes."""
import struct, sys
from pathlib import Path

sys.dont_write_bytecode = True
sys.path.insert(0, str(Path(__file__).parent.parent / "glmm"))
from damage import CASE_J, CASE_J_SECOND, TWO_BLOCKS, TWO_BLOCKS_SECOND, all_blocks, block_sizes, counts_and_columns, cuts, fields, not_finite, pairs, spare_bits, surplus, two_faults, with_field
from form import job_bytes
from reader import Refused, parse


def jobs():
    """Small jobs, each once, in this order."""
    one, two = job_bytes(CASE_J), job_bytes(TWO_BLOCKS)
    found = [one, with_field(one, 38, 10, 1000), with_field(one, 38, 10, 1001), two]
    for name, about in (("J", CASE_J), ("two", TWO_BLOCKS), ("J-second", CASE_J_SECOND), ("two-second", TWO_BLOCKS_SECOND)):
        data = job_bytes(about)
        found.append(data)
        for kind in (cuts, surplus):
            found += [damaged for _, damaged in kind(name, data)]
        for kind in (spare_bits, counts_and_columns, two_faults):
            found += [damaged for _, damaged in kind(name, about)]
    for kind in (fields, pairs):
        found += [damaged for _, damaged in kind("J", one)]
    for kind in (block_sizes, not_finite):
        found += [damaged for _, damaged in kind("J", CASE_J)]
    found += [damaged for _, damaged in all_blocks()]
    return [data for data in dict.fromkeys(found) if len(data) < 600]


def hexed(x):
    return "7FF8000000000000" if x != x else struct.pack(">d", x).hex().upper()


def row(name, numbers, spare):
    """A list's numbers and the one behind them, which was lent as 9."""
    print(name, *[hexed(x) for x in numbers], spare)


def told(data):
    try:
        job = parse(data)
    except Refused as e:
        print("refused", e.args[0], "at", e.args[1])
        return
    entries = [entry for r in job.zt for entry in r]
    starts = [0]
    for r in job.zt:
        starts.append(starts[-1] + len(r))
    weights, offset = job.weights or [], job.offset or []
    limit = "none" if job.limit is None else job.limit
    print("accepted", job.family, job.link, job.n_agq, limit, job.n, job.p, job.q, len(entries), job.start, len(job.theta), len(weights), len(offset))
    blocks = job.blocks + [(0, 0)] * (8 - job.count)
    print("blocks", job.count, *[number for block in blocks for number in block])
    row("theta", job.theta, hexed(9.0))
    row("y", job.y, hexed(9.0))
    row("weights", weights, hexed(9.0))
    row("offset", offset, hexed(9.0))
    row("x", [v for r in job.x for v in r], hexed(9.0))
    print("starts", *starts, 9)
    print("columns", *[column for column, _ in entries], 9)
    row("values", [value for _, value in entries], hexed(9.0))
    for i, v in enumerate(job.y):
        print("y", i, hexed(v))


def main():
    if "--stdin" in sys.argv:
        for data in jobs():
            sys.stdout.buffer.write((len(data) + 1).to_bytes(8, "big") + data)
        return
    print("end 13 order 0 disp 0 iters 0 fits 1 solves 0 tries 0 points 0 why 0 eta 0 mean 0 pwrss 0 ok 0")
    print("end 18446744073709551615 order 10000000000000000000 disp 1 iters 9999999999999999999 fits 241 solves 241000 tries 24100000 points 1687000 why 6 "
          "eta 23000000 mean 800000 pwrss 59000 ok 241000")
    print("phi 0", hexed(float("nan")))
    print("beta 15", hexed(-0.0))
    print("v 255", hexed(float("inf")))
    told(bytes(65537))
    for data in jobs():
        told(data)


main()
