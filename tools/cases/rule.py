#!/usr/bin/env python3
"""usage: tools/cases/rule.py [NAME..]
Writes crates/rule_cases/proofs/: for each closed job below (or those named) a theorem that the checker proves by computing the written rule,
the right side being what the oracle answers (tools/oracle), bit for bit."""
import glob, json, re, struct, subprocess, sys
from pathlib import Path

sys.dont_write_bytecode = True
ROOT = Path(__file__).resolve().parents[2]
sys.path.insert(0, str(ROOT / "tools" / "glmm"))
from form import from_groups, job_bytes

CRATES = ["base", "root", "tabulated", "elementary", "log_gamma", "normal", "model", "family", "family_lists", "factor", "lambda", "linear", "stored", "rule"]
IEEE = "add sub mul div neg lt le eq ne is_nan of_bits to_bits of_int to_unsigned round".split()
COUNTS = "fits solves tries points eta mean pwrss ok".split()
VECTORS = "beta se z u b mu eta residual v".split()
JOBS = json.loads((ROOT / "crates" / "rule_cases" / "jobs.json").read_text())


def definitions(crates=CRATES):
    """The definitions that a computation opens: (module, names); propositions are none of them."""
    for crate in crates:
        for path in sorted(glob.glob(str(ROOT / "crates" / crate / "specs" / "*.antt"))):
            names = re.findall(r"(?m)^ *unfoldable pub (\S+) :(?!.*Type 0$)", Path(path).read_text())
            if names:
                yield f"Rattle.{crate}.specs.{Path(path).stem}", names


def number(value):
    pattern = value if isinstance(value, str) else struct.pack(">d", float(value)).hex()
    return "bits 0x" + "_".join(pattern.lower()[i:i + 4] for i in range(0, 16, 4))


def numbers(values):
    return " ∷ ".join([*map(number, values), "[]"]) if values else "[]"


def counts(values):
    return " ∷ ".join([*map(str, values), "[]"])


def eight(values):
    return counts([*values, *[0] * (8 - len(values))])


def record(**fields):
    return "record { " + "; ".join(f"{name} = {value}" for name, value in fields.items()) + " }"


def given(job):
    """The record that the rule takes."""
    family, link = job["family"].capitalize(), job["link"].capitalize()
    starts = [0]
    for row in job["zt"]:
        starts.append(starts[-1] + len(row))
    entries = [entry for row in job["zt"] for entry in row]
    shape = record(count=len(job["blocks"]), m=eight([b["m"] for b in job["blocks"]]), k=eight([b["k"] for b in job["blocks"]]))
    zt = record(starts=counts(starts), columns=counts([c for c, _ in entries]), values=numbers([v for _, v in entries]))
    design = record(n=len(job["y"]), p=len(job["x"][0]), shape=shape, theta=numbers(job["theta"]), offset=numbers(job.get("offset") or []),
                    x=numbers([v for row in job["x"] for v in row]), zt=zt)
    return record(family="family." + family, link="link." + link, y=numbers(job["y"]), weights=numbers(job.get("weights") or []), design=design)


def answer(job):
    """What the oracle says of the job: the words of its first line, and its vectors."""
    said = subprocess.run([ROOT / "tools" / "oracle", "run"], input=job_bytes(job), stdout=subprocess.PIPE, check=True).stdout.decode().split("\n")
    end = said[0].split()
    vectors = {}
    for line in said[1:]:
        if line:
            name, _, value = line.split()
            vectors.setdefault(name, []).append(value)
    return dict(zip(end[::2], map(int, end[1::2]))), vectors


def told(end, vectors):
    account = record(**{name: end[name] for name in COUNTS})
    return record(number=end["end"], iterations=end["iters"], account=account, deviance=number(vectors["deviance"][0]) if vectors else "zero_f",
                  **{name: numbers(vectors.get(name, [])) for name in VECTORS})


def file_of(name, about):
    job = from_groups({key: value for key, value in about.items() if key != "says"})
    end, vectors = answer(job)
    limit = job.get("limit")
    limit = limit if limit is not None else 1000 if job["link"] == "inverse" else 100
    uses = [f"use {module}.{{{', '.join(names)}}}" for module, names in definitions()]
    opened = " ".join([*IEEE, *(n for _, names in definitions() for n in names)])
    return f"""-- {about['says']} Made by tools/cases/rule.py; the right side is the oracle's answer. Assumes nothing.
use mathlib.Core.Path.{{◌≡◌, refl}}
use mathlib.Core.List.{{[], ◌∷◌}}
use lib.Ieee.{{{', '.join(IEEE)}}}
use Rattle.base.specs.Number.{{bits{", zero_f" if end["end"] else ""}}}
{chr(10).join(uses)}
use Rattle.rule.specs.Given.{{Given}}
use Rattle.family.specs.declared.carried.CarriedFamily.TheVariants as family
use Rattle.family.specs.declared.carried.CarriedLink.TheVariants as link
use Rattle.rule_cases.specs.Told.{{Told, told_mode, told_v, told_ending, told_outcome, told_of}}

abbrev job : Given
job = {given(job)}

abbrev answer : Told
answer = {told(end, vectors)}

pub holds : told_of job {limit} ≡ answer
unfolding told_mode told_v told_ending told_outcome told_of {opened}
holds = refl
"""


def main():
    folder = ROOT / "crates" / "rule_cases" / "proofs"
    for name, about in JOBS.items():
        if not sys.argv[1:] or name in sys.argv[1:]:
            (folder / f"{name}.antt").write_text(file_of(name, about))
    lib = "-- Closed inner fits: what the checker computes from the written rule is the oracle's answer. Assumes nothing.\n"
    (folder / "Lib.antt").write_text(lib + "".join(f"pub mod {name}\n" for name in JOBS))


if __name__ == "__main__":
    main()
