#!/usr/bin/env python3
"""usage: tools/port/spelling.py [--check]
Brings the names of this repository's own definitions, lemmas, fields and constructors to today's spelling, once, on top of the kit's port.py: words in snake case
(`dotOf` is `dot_of`, `tally-none` is `tally_none`); types, modules and facts keep their capitals. It goes by what stands in specs/ and proofs/: a name that these
define is respelled wherever it stands as a whole word in crates/*/specs, proofs, src and must-fail, but not in a string, and not where the file brings in another
crate's name of that spelling from outside the repository. Answers to goals (`x : tie.Need-x`) are the toolchain's names and stay. It prints names that fall together,
and with --check changes nothing."""
import re, sys
from collections import defaultdict
from pathlib import Path

ROOT = Path(__file__).resolve().parent.parent.parent
WORD = r"[^\W\d][\w'₀-₉]*(?:-[\w'₀-₉]+)*"
DEFINED = re.compile(rf"^(?:(?:abbrev|unfoldable|pub) )*(?:ruleset )?({WORD})(?: [^:=]*)? (?::|=)")
FIELD = re.compile(rf"^\s+(?:pub )?({WORD}(?: {WORD})*) : ")


def antt():
    return sorted(p for kind in ("specs", "proofs") for p in ROOT.glob(f"crates/*/{kind}/**/*.antt"))


def respelled(name):
    """The name in snake case; a type's or a fact's name stays."""
    if name[0].isupper() or not re.search(r"[A-Z-]", name):
        return name
    parts = re.sub(r"(?<=[a-z0-9₀-₉])(?=[A-Z])", "_", name).replace("-", "_")
    return parts.lower()


# one that a parameter's name would hide in a clause, and those with a letter for a word
SPECIAL = {"devAt": "dev_resid_at", "overDRule": "over_d_rule", "trialUPlace": "trial_u_place", "trialBPlace": "trial_b_place"}


def mapped(where):
    """Old names to new: where a lemma and a definition fall together, the lemma's name ends in `_lem`."""
    names = {n: SPECIAL.get(n, respelled(n)) for n in where}
    moved = {n: new for n, new in names.items() if new != n}
    olds = defaultdict(set)
    for n, new in moved.items():
        olds[new].add(n)
    lemmas = {}
    for new, both in olds.items():
        if len(both) > 1:
            for n in both:
                if "-" in n:
                    moved[n] = new + "_lem"
        if new in names:
            for n in both:
                if "-" in n:
                    moved[n] = new + "_lem"
                elif all("/proofs/" in str(p) for p in where[new]):
                    lemmas[new] = new + "_lem"
    return moved, lemmas


def defined():
    """The names that specs/ and proofs/ define."""
    names = defaultdict(set)
    for path in antt():
        text = re.sub(r"--.*", "", path.read_text())
        lines = text.split("\n")
        inside = False
        for at, line in enumerate(lines):
            if re.match(r"^(pub )?(record|data) ", line):
                inside = True
                continue
            if line and not line[0].isspace():
                inside = False
            where = re.sub(r"^(?:  ){1,12}(?! )", "", line)
            found = DEFINED.match(where) if not where.startswith((" ", "use ", "mod ", "pub mod ", "module ", "unfolding ")) else None
            if found and ": tie." not in where and ": goal." not in where and ": statement " not in where and "-> statement" not in where and "→ statement" not in where:
                # a line is a definition where it has a type; an equation repeats the name of one
                if re.match(rf"^(?:(?:abbrev|unfoldable|pub) )*(?:{WORD} :|{WORD} [^=]* :|ruleset )", where):
                    names[found[1]].add(path)
            if inside:
                field = FIELD.match(line)
                for name in field[1].split() if field else ():
                    names[name].add(path)
    return names


def foreign(text, own):
    """What a file brings in from outside the repository."""
    out = set()
    for path, names in re.findall(r"(?m)^(?:pub )?(?:ghost )?use ([^;{\n]+?)\.\{([^}]*)\}", text):
        if not (path.startswith("Rattle.") and path.split(".")[1] in own):
            out |= {n.split(" as ")[0].strip() for n in names.split(",")}
    return out


def turned(text, names, kept, lemmas={}):
    def one(m):
        word = m[0]
        if word in kept:
            return word
        if word in lemmas and not text[:m.start()].endswith("."):
            return lemmas[word]
        return names.get(word, word)
    return re.sub(rf"(?<![\w'-]){WORD}", one, text)


def rt_turned(text, names, kept):
    """The same in a source file, but for its strings."""
    return "".join(part if part.startswith('"') else turned(part, names, kept) for part in re.split(r'("(?:[^"\\\n]|\\.)*")', text))


def main(words):
    check = "--check" in words
    own = {p.name for p in (ROOT / "crates").iterdir()}
    where = defined()
    where["is-nan"].add(ROOT / "crates/base/proofs/Doubles.antt")
    names, lemmas = mapped(where)
    if "is-nan" in names:
        names["is-nan"] = "is_nan_lem"  # the toolchain has an `is_nan`
    files = antt() + sorted(ROOT.glob("crates/*/src/**/*.rt")) + sorted(ROOT.glob("crates/*/must-fail/**/*.edit"))
    changed = 0
    for path in files:
        text = path.read_text()
        kept = foreign(text, own)
        in_proof = path.suffix == ".antt" and "/proofs/" in str(path)
        new = rt_turned(text, names, kept) if path.suffix == ".rt" else turned(text, names, kept, lemmas if in_proof else {})
        if path.suffix != ".edit":
            before = set(re.findall(WORD, text))
            clash = sorted(w for w in before if w in names and w not in kept and names[w] in before)
            if clash:
                print(f"{path.relative_to(ROOT)}: falls together: " + ", ".join(f"{w} and {names[w]}" for w in clash))
        if new != text:
            changed += 1
            if not check:
                path.write_text(new)
    for old, new in sorted((names | lemmas).items()):
        if new.endswith("_lem"):
            print(f"{old} is {new}")
    print(f"{len(names)} names, {changed} files")


if __name__ == "__main__":
    if "--help" in sys.argv:
        print(__doc__)
    else:
        main(sys.argv[1:])
