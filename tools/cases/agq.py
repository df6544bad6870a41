#!/usr/bin/env python3
"""usage: tools/cases/agq.py [NAME..]
Writes crates/agq_cases/proofs/: for each closed job of jobs.json (or those named) a theorem that the checker proves by computing the written rule
of the inner fit with its quadrature. Number, order, counts and deviance are what the oracle answers (tools/oracle), bit for bit. The cause of a
quadrature that declined is in jobs.json, where the oracle's reason must be its number; two causes have the number 5."""
import json, sys

sys.dont_write_bytecode = True
from rule import COUNTS, CRATES, IEEE, ROOT, answer, definitions, given, number, record
from form import from_groups

TOLD = "reason_by told_end told_inner told_with".split()
OPENED = [*CRATES, "quadrature", "spread", "agq_rule"]
NUMBERS = {None: 0, "Wish": 1, "Effects": 2, "Cap": 3, "Diagonal": 4, "Inverse": 5, "Factor": 5, "Sum": 6}
JOBS = json.loads((ROOT / "crates" / "agq_cases" / "jobs.json").read_text())


def told(end, vectors, why):
    account = record(**{name: end[name] for name in COUNTS})
    reason = "no_mode" if end["end"] else f"because reason.{why}" if why else "used"
    return record(number=end["end"], order=end["order"], account=account, deviance=number(vectors["deviance"][0]) if vectors else "zero_f", reason=reason)


def file_of(about):
    job = from_groups({key: value for key, value in about.items() if key not in ("says", "declines")})
    end, vectors = answer(job)
    limit = job.get("limit")
    limit = limit if limit is not None else 1000 if job["link"] == "inverse" else 100
    opened = [*definitions(OPENED)]
    why = about.get("declines")
    if end["why"] != NUMBERS[why]:
        sys.exit(f"agq.py: '{about['says']}' declines for {why}, but the oracle tells why {end['why']}")
    which = "no_mode" if end["end"] else "because" if why else "used"
    reasons = "use Rattle.quadrature.specs.declared.orders.Decline.TheVariants as reason\n" if why else ""
    uses = [f"use {module}.{{{', '.join(names)}}}" for module, names in opened]
    names = " ".join([*TOLD, *IEEE, *(n for _, names in opened for n in names)])
    return f"""-- {about['says']} Made by tools/cases/agq.py; the right side is the oracle's answer. Assumes nothing.
use mathlib.Core.Path.{{◌≡◌, refl}}
use mathlib.Core.List.{{[], ◌∷◌}}
use lib.Ieee.{{{', '.join(IEEE)}}}
use Rattle.base.specs.Number.{{bits{", zero_f" if end["end"] else ""}}}
{chr(10).join(uses)}
use Rattle.rule.specs.Given.{{Given}}
use Rattle.family.specs.declared.carried.CarriedFamily.TheVariants as family
use Rattle.family.specs.declared.carried.CarriedLink.TheVariants as link
{reasons}use Rattle.agq_cases.specs.Told.{{{which}, Told, {', '.join(TOLD)}}}

abbrev job : Given
job = {given(job)}

abbrev answer : Told
answer = {told(end, vectors, why)}

pub holds : told_with job {job.get("n_agq", 1)} {limit} ≡ answer
unfolding {names}
holds = refl
"""


def main():
    folder = ROOT / "crates" / "agq_cases" / "proofs"
    for name, about in JOBS.items():
        if not sys.argv[1:] or name in sys.argv[1:]:
            (folder / f"{name}.antt").write_text(file_of(about))
    lib = "-- Closed inner fits with quadrature: what the checker computes from the written rule is the oracle's answer. Assumes nothing.\n"
    (folder / "Lib.antt").write_text(lib + "".join(f"pub mod {name}\n" for name in JOBS))


main()
