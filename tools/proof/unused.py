#!/usr/bin/env python3
"""usage: unused.py [--mend] [CRATE..]
Names that a .antt file brings in by `use ..{..}` and does not use (--mend takes them out), and laws (`pub` names of proofs/) that nothing cites.
A `ghost use` of a .rt file is looked at too."""
import glob, re, sys
if sys.argv[1:2] in (["-h"], ["--help"]):
    print(__doc__)
    sys.exit()

mend = "--mend" in sys.argv
crates = [a for a in sys.argv[1:] if not a.startswith("-")] or ["*"]


def sources(crate):
    return [f for kind in ("src", "specs", "proofs") for end in ("antt", "rt") for f in glob.glob(f"crates/{crate}/{kind}/**/*.{end}", recursive=True)]


files = [f for c in crates for f in sources(c)]
every = sources("*")


def words(text):
    text = re.sub(r"(?m)(--|//).*$", "", text)
    return re.split(r"[\s(){}\[\],;.«»]+", text)


def parts(name):  # `◌⊕◌` is written ⊕
    return [p for p in name.split("◌") if p]


for f in files:
    s = open(f).read()
    lines = [m for m in re.finditer(r"(?m)^%suse [^\n{]*\{([^}\n]*)\};?$" % ("ghost " if f.endswith(".rt") else ""), s)]
    body = set(words("".join(l for l in s.splitlines(True) if not re.match(r"(ghost )?use ", l))))
    out = s
    for m in lines:
        names = [n.strip() for n in m.group(1).split(",") if n.strip()]
        bad = [n for n in names if n != "[]" and n not in body and not all(p in body for p in parts(n.split(" as ")[-1]))]
        if bad:
            print(f"{f}: {', '.join(bad)}")
            kept = [n for n in names if n not in bad]
            line = m.group(0)
            out = out.replace(line + "\n", line.replace("{" + m.group(1) + "}", "{" + ", ".join(kept) + "}") + "\n" if kept else "", 1)
    if mend and out != s:
        open(f, "w").write(out)
cited = {}
for f in every:
    for w in set(words(open(f).read())):
        cited.setdefault(w, set()).add(f)
for f in files:
    if re.search(r"/proofs/\w+\.antt$", f):
        s = open(f).read()
        for n in re.findall(r"(?m)^ *pub (\S+) :", s):
            if len(re.findall(r"(?<![\w-])" + re.escape(n) + r"(?![\w'-])", s)) <= 2 and cited.get(n, set()) <= {f}:
                print(f"{f}: nothing cites {n}")
