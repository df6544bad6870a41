#!/usr/bin/env python3
"""usage: tools/cases/call.py [NAME..]
Writes crates/call_cases/proofs/: for each closed job of jobs.json (or those named) a theorem that the checker proves by computing the definition
of a call: table, dispersion loop, inner fits, answer and results, whatever slices of the lengths asked for are lent. The right side is what the oracle answers
(tools/oracle), bit for bit."""
import json, sys

sys.dont_write_bytecode = True
from rule import COUNTS, CRATES, IEEE, ROOT, VECTORS, answer, counts, definitions, eight, number, numbers, record
from form import from_groups

OPENED = [*CRATES, "quadrature", "spread", "agq_rule", "dispersion", "table", "results", "call"]
JOBS = json.loads((ROOT / "crates" / "call_cases" / "jobs.json").read_text())


def entries(job):
    return [entry for row in job["zt"] for entry in row]


def settings(job):
    limit = job.get("limit")
    return record(family="family." + job["family"].capitalize(), link="link." + job["link"].capitalize(), **{"n_agq": job.get("n_agq", 1)},
                  limit="None" if limit is None else f"Some {limit}", n=len(job["y"]), p=len(job["x"][0]), rows=len(job["zt"]),
                  entries=len(entries(job)), start="start." + job.get("start", "usual").capitalize())


def shape(job):
    return record(count=len(job["blocks"]), m=eight([b["m"] for b in job["blocks"]]), k=eight([b["k"] for b in job["blocks"]]))


def inputs(job):
    starts = [0]
    for row in job["zt"]:
        starts.append(starts[-1] + len(row))
    return record(theta=numbers(job["theta"]), y=numbers(job["y"]), weights=numbers(job.get("weights") or []), offset=numbers(job.get("offset") or []),
                  x=numbers([v for row in job["x"] for v in row]), starts=counts(starts), columns=counts([c for c, _ in entries(job)]),
                  values=numbers([v for _, v in entries(job)]))


def room(job):
    """The lengths that document 01 asks for."""
    n, p, q = len(job["y"]), len(job["x"][0]), len(job["zt"])
    return record(beta=p, se=p, z=p, u=q, b=q, mu=n, eta=n, residual=n, v=p * p, rows=16 * n, matrices=3 * q * q + 4 * p * p + 2 * q * p + 12 * (q + p), terms=7000)


def told(end, vectors):
    account = record(**{name: end[name] for name in COUNTS})
    of = record(number=end["end"], deviance=number(vectors["deviance"][0]) if vectors else "zero_f", phi=number(vectors["phi"][0]) if vectors else "zero_f",
                order=end["order"], why=end["why"], converged="true" if end["disp"] else "false", iterations=end["iters"], account=account)
    results = record(**{name: numbers(vectors[name]) for name in VECTORS}) if vectors else "L.results"
    return record(answer=of, results=results)


def file_of(about):
    job = from_groups({key: value for key, value in about.items() if key != "says"})
    end, vectors = answer(job)
    opened = [*definitions(OPENED)]
    uses = [f"use {module}.{{{', '.join(names)}}}" for module, names in opened]
    names = " ".join(["told_of", *IEEE, *(n for _, names in opened for n in names)])
    return f"""-- {about['says']} Made by tools/cases/call.py; the right side is the oracle's answer. Assumes nothing.
use Rattle.std.specs.Prelude.{{{"None" if job.get("limit") is None else "Some"}}}
use mathlib.Core.Path.{{◌≡◌, refl}}
use mathlib.Core.Bool.{{{"true" if end["disp"] else "false"}}}
use mathlib.Core.List.{{[], ◌∷◌}}
use lib.Ieee.{{{', '.join(IEEE)}}}
use Rattle.base.specs.Number.{{bits{"" if vectors else ", zero_f"}}}
{chr(10).join(uses)}
use Rattle.model.specs.Inputs.{{Inputs}}
use Rattle.model.specs.declared.sizes.Shape.{{Shape}}
use Rattle.model.specs.declared.sizes.Settings.{{Settings}}
use Rattle.model.specs.declared.names.Family.TheVariants as family
use Rattle.model.specs.declared.names.Link.TheVariants as link
use Rattle.model.specs.declared.names.Start.TheVariants as start
use Rattle.table.specs.declared.verdicts.LentLengths.{{LentLengths}}
use Rattle.call.specs.Call.{{Lent}}
use Rattle.call_cases.specs.Told.{{Told, told_of}}

abbrev settings : Settings
settings = {settings(job)}

abbrev shape : Shape
shape = {shape(job)}

abbrev inputs : Inputs
inputs = {inputs(job)}

-- how long the lent slices are
abbrev room : LentLengths
room = {room(job)}

abbrev answer : Lent → Told
answer L = {told(end, vectors)}

-- in slices of these lengths
computed : (L : Lent) → told_of (call_by (table_of 1 settings shape inputs room) settings shape inputs L) ≡ answer L
unfolding {names}
computed L = refl

pub holds : (L : Lent) → lengths_of L ≡ room → told_of (call_of settings shape inputs L) ≡ answer L
unfolding call_of
holds L r = rw r (computed L)
"""


def main():
    folder = ROOT / "crates" / "call_cases" / "proofs"
    for name, about in JOBS.items():
        if not sys.argv[1:] or name in sys.argv[1:]:
            (folder / f"{name}.antt").write_text(file_of(about))
    lib = "-- Closed calls: what the checker computes from the definition of a call is the oracle's answer. Assumes nothing.\n"
    (folder / "Lib.antt").write_text(lib + "".join(f"pub mod {name}\n" for name in JOBS))


main()
