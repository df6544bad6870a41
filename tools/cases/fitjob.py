#!/usr/bin/env python3
"""usage: fitjob.py > crates/cases_fitjob/stdout
       fitjob.py --stdin > crates/cases_fitjob/stdin
       fitjob.py --into FOLDER
What `cases_fitjob` must print, by the oracle, and the jobs that it is given, each behind its length in three bytes; or the jobs as files, named by their numbers.
Job 0 is one byte too long and stands in the program. Then: case J, L 1000 and 1001, every refusal that a job can meet with its byte, both starts of version 2, the closed fits of
rule_cases, agq_cases and call_cases (every end), the fits of crates/cases_fitjob/jobs.json, and random jobs of every kind (tools/glmm/kinds.py), the largest of them of 65,536 bytes."""
import json, random, subprocess, sys, tempfile
from pathlib import Path

sys.dont_write_bytecode = True
ROOT = Path(__file__).resolve().parent.parent.parent
sys.path.insert(0, str(ROOT / "tools" / "glmm"))
import kinds
from damage import CASE_J, CASE_J_SECOND, TWO_BLOCKS, TWO_BLOCKS_SECOND, with_field
from form import job_bytes

PLAIN = {"limit": 5}  # of a small job that would be fitted
SHARES = {"scalar": 4, "product": 4, "joint": 4, "strong": 2, "weights": 3, "thetas": 3, "stored_zeros": 2, "dispersion": 4, "halved": 2, "far": 2, "least": 2, "singular": 1,
          "in_vain": 2, "pivots": 2, "coupled": 2, "later_group": 1, "second_block": 1, "out_of_range": 2, "extremes": 2, "no_residual": 2, "refused": 4, "middle": 1, "wide": 1,
          "full_joint": 1, "trials": 6, "gamma": 16, "probit": 8}


def job_refusals():
    """20, 21, 24, 22, 23 and 1, each at its byte, in both versions where the place is another."""
    one, two, second = job_bytes(CASE_J), job_bytes(TWO_BLOCKS), job_bytes(CASE_J_SECOND)
    yield from (b"", one[:1], one[:5], one[:7], one[:20], one[:33], one[:43], two[:-1], second[:6], second[:7], second[:44])  # 20
    yield from (with_field(one, 0, 4, version) for version in (0, 3, 15))  # 21
    yield from (with_field(one, 6, 3, 7), with_field(one, 38, 10, 1022))  # 24
    yield from (with_field(one, 59, 5, 1), with_field(one, 8 * 33 + 5, 3, 4), with_field(one, 8 * 35 + 5, 3, 1))  # 22: block, row, entry
    yield from (with_field(second, 49, 1, 1), with_field(second, 55, 1, 1), with_field(with_field(second, 55, 1, 1), 38, 10, 1001))  # 22 behind the start; 24 before it
    yield from (one + b"\0", two + one, second + b"\0")  # 23
    yield from (with_field(one, 16, 13, 0), with_field(one, 16, 13, 513), with_field(one, 29, 5, 17), with_field(one, 34, 4, 0), with_field(one, 48, 7, 33))  # 1


def table_refusals():
    """6, 3, 4, 9 and 27 at byte 0, and which comes first where there are two; probit, which was 5 once, is none of them with binomial."""
    fair = {**CASE_J, **PLAIN}
    inf = float("inf")
    yield {**fair, "zt": [[[1, 1]]]}  # 6: a column that is not below n
    yield {**TWO_BLOCKS, "zt": [[[2, 1.0], [0, 1.0]]] + TWO_BLOCKS["zt"][1:]}  # 6: columns that fall
    yield {**TWO_BLOCKS, "zt": [[[2, 1.0], [2, 1.0]]] + TWO_BLOCKS["zt"][1:]}  # 6: a column twice
    for name, value in (("theta", [inf]), ("y", [-inf]), ("weights", [float("nan")]), ("offset", [inf]), ("x", [[float("nan")]]), ("zt", [[[0, -inf]]])):
        yield {**fair, name: value}  # 3
    yield {**fair, "y": [inf], "zt": [[[1, 1]]]}  # 6 before 3
    yield {**TWO_BLOCKS, "x": [[1.0, inf]] + TWO_BLOCKS["x"][1:], "zt": [[[0, 1.0], [3, 1.0]]] + TWO_BLOCKS["zt"][1:]}  # 6 before 3
    yield {**fair, "link": "logit", "zt": [[[1, 1]]]}  # 6 before 4
    yield {**fair, "link": "logit"}  # 4
    yield {**fair, "family": "gamma", "link": "sqrt"}  # 4
    yield {**fair, "y": [inf], "link": "cloglog"}  # 3 before 4
    yield {**fair, "link": "probit"}  # 4
    yield {**fair, "family": "binomial", "link": "probit", "theta": [inf]}  # 3
    yield {**fair, "family": "gamma", "link": "probit"}  # 4
    yield {**fair, "family": "binomial", "link": "probit", "y": [1]}  # none
    yield {**fair, "family": "binomial", "link": "probit"}  # 9
    yield {**fair, "link": "logit", "y": [-1]}  # 4 before 9
    for family, link, y in (("binomial", "logit", 1.0000000000000002), ("binomial", "cloglog", -5e-324), ("poisson", "log", -5e-324), ("gamma", "inverse", 0.0), ("gamma", "log", -0.0)):
        yield {**fair, "family": family, "link": link, "y": [y]}  # 9
    yield {**TWO_BLOCKS, "y": [0.0, 1.0, 1.5], "weights": [1.0, 2.0, 0.0]}  # 9: a response of weight 0
    for family, link in (("poisson", "log"), ("gaussian", "identity"), ("gamma", "log")):
        yield {**CASE_J_SECOND, **PLAIN, "start": "trials", "family": family, "link": link}  # 27: another family
    for weight in (-1.0, -5e-324):
        yield {**TWO_BLOCKS_SECOND, "weights": [1.0, 2.0, weight]}  # 27: a weight below 0
    yield {**TWO_BLOCKS_SECOND, "weights": [-1.0, 2.0, 3.0], "y": [0.0, 1.0, 1.5]}  # 9 before 27
    yield {**CASE_J_SECOND, "start": "trials", "link": "logit"}  # 4 before 27


def starts():
    """Small jobs of version 2, the start that they ask for told apart by what is printed: weights that are numbers of trials, none of them or some; weights that are absent or all 1."""
    for weights in ([1.0, 2.0, 3.0], [0.0, -0.0, 3.0], [40.0, 7.0, 12.0], [1.0, 1.0, 1.0], None):
        for start in ("usual", "trials"):
            yield {**TWO_BLOCKS_SECOND, "weights": weights, "start": start}
    yield CASE_J_SECOND


def pairs():
    """Two small jobs of each family and link, one with weights and an offset."""
    r = random.Random("fitjob pairs")
    for pair in kinds.PAIRS:
        for dress in (False, True):
            about = kinds.description(r, pair, r.randint(4, 8), r.randint(1, 2), kinds.some_blocks(r, 4))
            if dress:
                kinds.positive_weights(r, about)
                kinds.small_offset(r, about)
            yield about


def jobs():
    """The jobs of standard input, in this order."""
    one = job_bytes(CASE_J)
    found = [one, with_field(one, 38, 10, 1000), with_field(one, 38, 10, 1001), *job_refusals(), *map(job_bytes, table_refusals()), *map(job_bytes, starts())]
    for crate in ("rule_cases", "agq_cases", "call_cases", "cases_fitjob"):
        found += [job_bytes(about) for about in json.loads((ROOT / "crates" / crate / "jobs.json").read_text()).values()]
    found += map(job_bytes, pairs())
    for kind, share in SHARES.items():
        found += [data for _, data in kinds.random_jobs("fitjob", share, kind)]
    found.append(job_bytes(kinds.exact(random.Random("fitjob exact"))))
    return found


def written(found, folder):
    """A file for each job, named by its number; the names."""
    for number, data in enumerate(found):
        (Path(folder) / str(number)).write_bytes(data)
    return [str(number) for number in range(len(found))]


def main():
    if sys.argv[1:2] == ["--stdin"]:
        for data in jobs():
            sys.stdout.buffer.write(len(data).to_bytes(3, "big") + data)
        return
    found = [bytes(65537), *jobs()]
    if sys.argv[1:2] == ["--into"]:
        Path(sys.argv[2]).mkdir(parents=True, exist_ok=True)
        written(found, sys.argv[2])
        return
    with tempfile.TemporaryDirectory() as folder:
        names = written(found, folder)
        sys.stdout.buffer.write(subprocess.run([str(ROOT / "tools" / "oracle"), "many", *names], cwd=folder, check=True, stdout=subprocess.PIPE).stdout)


main()
