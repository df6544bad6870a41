"""What tools/proved and tools/names know of the sources: crates, functions with their contracts, definitions, theorems, must-fail edits."""
import re
from pathlib import Path

ROOT = Path(__file__).resolve().parent.parent
CRATES = [line.split(":")[0].split()[0] for line in (ROOT / "crates.txt").read_text().splitlines() if ":" in line]


def files(crate, folder, kind):
    return sorted((ROOT / "crates" / crate / folder).glob(f"**/*.{kind}"))


def closed(text, at, opening, closing):
    """The place behind the bracket that closes the one at `at`."""
    depth = 0
    for i in range(at, len(text)):
        depth += (text[i] == opening) - (text[i] == closing)
        if depth == 0:
            return i + 1
    raise ValueError("a bracket that nothing closes")


def clauses(text, at):
    """The contract behind a function's name: its clauses by kind, each a list of their texts without the clauses' names."""
    at, found = closed(text, text.index("(", at), "(", ")"), {}
    while True:
        clause = re.compile(r"[^{]*?\b(requires|ensures|ghost)(?: \w+)? \{").match(text, at)
        if not clause:
            return found
        end = closed(text, clause.end() - 1, "{", "}")
        found.setdefault(clause.group(1), []).append(text[clause.end():end - 1])
        at = end


def brought(text):
    """Definitions of our crates that a source file brings in: its name there, then (crate, file, name)."""
    names = {}
    for crate, path, listed in re.findall(r"(?m)^ *ghost use Rattle\.(\w+)\.specs\.(\w+)\.\{([^}]*)\};", text):
        for item in (item.strip() for item in listed.split(",") if crate in CRATES):
            name, _, alias = item.partition(" as ")
            names[alias or name] = (crate, path, name)
    return names


def functions(crate):
    """Each function of a crate: its name (`Type::name` for a method), module, whether it is public, its contract and the definitions in its file."""
    for file in files(crate, "src", "rt"):
        text, known = file.read_text(), brought(file.read_text())
        types = [(m.start(), closed(text, text.index("{", m.start()), "{", "}"), m.group(1)) for m in re.finditer(r"(?m)^impl(?:<[^>]*>)? (\w+)", text)]
        for m in re.finditer(r'(?m)^ *(pub )?(?:extern "C" )?fn (\w+)', text):
            of = "".join(f"{name}::" for start, end, name in types if start < m.start() < end)
            yield of + m.group(2), file.stem, bool(m.group(1)), clauses(text, m.end()), known


def exported(crate):
    """The functions that another crate, or C, can call."""
    root = ROOT / "crates" / crate / "src" / "lib.rt"
    if not root.is_file():
        return []
    passed = {(module, name.strip()) for module, listed in re.findall(r"(?m)^pub use (?:crate::)?(\w+)::(\{[^}]*\}|\w+);", root.read_text()) for name in listed.strip("{}").split(",")}
    return [f for f in functions(crate) if f[2] and (f[1] == "lib" or (f[1], f[0].split("::")[0]) in passed)]


def names_in(file):
    """The names that a file of specs/ or proofs/ declares, fields and constructors among them."""
    text, before = re.sub(r"(?m)--.*$", "", file.read_text()), r"(?m)^\s*(?:(?:pub|abbrev|opaque|unfoldable) )*"
    found = set(re.findall(before + r"(?:record|data|ruleset|constructor) ([^\s:(){}]+)", text))
    for listed in re.findall(before + r"((?:[^\s:(){}=→≡]+ )+)(?=: )", text):  # `a b : T` declares both
        found |= set(listed.split())
    return found


def declared(crate, folder):
    """File by file the names of a crate's specs/ or proofs/, a function's own proof left out."""
    return {f.stem: names_in(f) for f in files(crate, folder, "antt") if f.parent.name == folder}


def own_laws():
    """The laws that stand in a function's own proof, beside its invariants and answers."""
    for file in (ROOT / "crates").glob("*/proofs/*/**/*.antt"):
        yield from re.findall(r"(?m)^pub (\S+) :", file.read_text())


def edits(crate, aside=None):
    """The must-fail edits of a crate: all, those that stand aside, or (False) those of the gate."""
    folders = {None: ["must-fail", "aside"], True: ["aside"], False: ["must-fail"]}[aside]
    return {f.stem for folder in folders for f in files(crate, folder, "edit")}
