#!/usr/bin/env python3
"""usage: tools/port/answers.py NAMES [CRATE|CRATE/FUNCTION..]
Turns each crates/CRATE/proofs/F/Proof.antt that answers its goals one by one into today's Invariants.antt and Answers.antt. NAMES is the folder that `rt names NAMES`
wrote: it says what each goal, step and place is called today. A path `c.before.before.step.field` is `c.step.field` now; a `let` that only names a place is gone; an
answer that said `search rules` alone is left to the check. What it could not turn is printed, one line each, and stands in the file with the mark TURN."""
import json, re, sys
from pathlib import Path

ROOT = Path(__file__).resolve().parent.parent.parent
WORD = r"[^\W\d][\w'₀-₉]*(?:-[\w'₀-₉]+)*"
said = []


def norm(name):
    name = name.replace("-", "_")
    return name[:-4] if name.endswith("_lem") else name


def blocks(text):
    """Top-level pieces: a piece begins at a line with no indent that is no continuation."""
    out, now = [], []
    for line in text.split("\n"):
        if line and not line[0].isspace():
            if now:
                out.append("\n".join(now))
            now = [line]
        else:
            now.append(line)
    if now:
        out.append("\n".join(now))
    return [b.rstrip() for b in out if b.strip()]


class Fn:
    def __init__(self, entry):
        self.e = entry
        self.places = entry["places"]
        self.at = {}
        for i, p in enumerate(self.places):
            self.at.setdefault(norm(p[0]), i)
        self.by_name = entry["places_by_name"]
        self.needs = entry["needs"]

    def place(self, name):
        return self.at.get(norm(name))

    def parent(self, i):
        p = self.places[i][1]
        return None if p is None else self.at.get(norm(p))

    def need(self, name):
        n = norm(name)
        n = re.sub(r"_holds(?=$|_\d+$)", "_init", n)
        n = re.sub(r"_less(?=$|_\d+$)", "_smaller", n)
        n = re.sub(r"_again(?=$|_\d+$)", "_preserved", n)
        for i, (old, new) in enumerate(self.needs):
            if norm(old) == n:
                return i
        return None


class Turn:
    """The paths of one answer."""
    def __init__(self, fn, ways, where, env, goal, own):
        self.fn, self.ways, self.where, self.env, self.goal, self.own = fn, ways, where, dict(env), goal, own

    def say(self, what):
        said.append(f"{self.where}: {what}")

    # ---- places
    def place_at(self, text, pos):
        """Reads a place: NAME(.before)*, (WAY PLACE), ( PLACE ); the index of the place and where it ends."""
        if text.startswith("(", pos):
            inner = pos + 1
            m = re.compile(rf"({WORD}) ").match(text, inner)
            if m and m[1] in self.ways:
                got = self.place_at(text, m.end())
                if got and text.startswith(")", got[1]):
                    return self.befores(text, self.ways[m[1]](got[0]), got[1] + 1)
                return None
            got = self.place_at(text, inner)
            if got and text.startswith(")", got[1]):
                return self.befores(text, got[0], got[1] + 1)
            return None
        m = re.compile(WORD).match(text, pos)
        if m and m[0] in self.env and isinstance(self.env[m[0]], int):
            return self.befores(text, self.env[m[0]], m.end())
        return None

    def befores(self, text, place, pos):
        while text.startswith(".before", pos) and not re.match(r"[\w'-]", text[pos + 7:pos + 8] or " ") and place is not None:
            up = self.fn.parent(place)
            place, pos = (place if up is None else up), pos + 7
        return place, pos

    # ---- fields behind a place
    def fields(self, text, pos):
        out = []
        rx = re.compile(rf"\.({WORD}|\d+)")
        while True:
            m = rx.match(text, pos)
            if not m:
                return out, pos
            out.append(m[1])
            pos = m.end()

    def named(self, place, fields):
        """What stands for PLACE.fields."""
        fn = self.fn
        dotted = lambda parts: "".join("." + p for p in parts)
        if not fields:
            if place == self.own:
                return "c"
            return f"(goal.at.{self.goal} c).{fn.by_name[place]}"
        head, rest = fields[0], fields[1:]
        if head in ("pre", "requires"):
            pre = fn.e.get("pre")
            if not pre:
                return "c.requires" + dotted(rest)
            names = pre["fields"]
            k = 0
            while rest and k < len(names) - 1:
                if rest[0] == "1":
                    k, rest = k + 1, rest[1:]
                    continue
                if rest[0] == "0":
                    return "c.requires." + names[k] + dotted(rest[1:])
                break
            if k == len(names) - 1 and k > 0:
                return "c.requires." + names[k] + dotted(rest)
            if not rest and k == 0:
                return "c.requires"
            self.say(f"requires{dotted(fields[1:])} of {names}")
            return "TURN.requires" + dotted(fields[1:])
        if head in ("well-formed", "well_formed", "good") and rest[:1] in (["0"], ["1"]):
            k = 0
            while rest and rest[0] == "1":
                k, rest = k + 1, rest[1:]
            if rest[:1] == ["0"] and k < len(fn.params):
                return f"c.ranges.{fn.params[k]}" + dotted(rest[1:])
        if head in ("args", "ranges", "lifetimes", "type_inv", "well_formed"):
            return "c." + head + dotted(rest)
        # each step on the way from the start to the goal has a name of its own
        up, found = self.own, None
        while up is not None:
            arms = fn.e["arms"][up] if up < len(fn.e["arms"]) else None
            for field, step, path in arms[2] if arms else ():
                if norm(step) == norm(head) and path and rest[:len(path)] == path:
                    return f"c.{arms[0]}.{field}" + dotted(rest[len(path):])
            if found is None and norm(fn.places[up][2][0]) == norm(head):
                found = up
            up = fn.parent(up)
        if found is None:
            self.say(f"no step {head} before {fn.places[self.own][0]}: {dotted(fields)}")
            return "TURN." + head + dotted(rest)
        place = found
        old, new = fn.places[place][2]
        callee = fn.places[place][3]
        if callee and rest and rest[0] in ("new", "auto", "last", "kept"):
            kind = {"last": "new", "kept": "auto"}.get(rest[0], rest[0])
            params, k, rest = fn.e["params"].get(callee), 0, rest[1:]
            while rest and rest[0] == "1":
                k, rest = k + 1, rest[1:]
            if rest and rest[0] == "0" and params and k < len(params):
                return f"c.{new}.{kind}.{params[k]}" + dotted(rest[1:])
            if params and rest and rest[0] in params:
                return f"c.{new}.{kind}" + dotted(rest)
            self.say(f"{head}.{kind} with {k} and {rest} of {params}")
            return f"TURN.{new}.{kind}"
        if rest and rest[0] in ("kept",):
            rest = ["auto"] + rest[1:]
        if rest and rest[0] == "inv":
            rest = ["invariant"] + rest[1:]
        return f"c.{new}" + dotted(rest)

    def turn(self, text):
        """Rewrites every path in a body, dropping lets that name a place."""
        out, pos = [], 0
        word = re.compile(WORD)
        let = re.compile(rf"let ({WORD}) = ")
        while pos < len(text):
            m = let.match(text, pos)
            if m and (pos == 0 or not re.match(r"[\w'.-]", text[pos - 1])):
                got = None
                w = re.compile(rf"({WORD}) ").match(text, m.end())
                if w and w[1] in self.ways:
                    got = self.place_at(text, w.end())
                    if got:
                        got = (self.ways[w[1]](got[0]), got[1])
                else:
                    got = self.place_at(text, m.end())
                end = re.compile(r"\s+in\b[ ]?").match(text, got[1]) if got else None
                if got and not end:
                    fields, stop = self.fields(text, got[1])
                    end2 = re.compile(r"\s+in\b[ ]?").match(text, stop)
                    if end2 and len(fields) == 2 and fields[1] in ("auto", "new"):
                        self.env[m[1]] = tuple(fields)
                        pos = end2.end()
                        gap = re.match(r"\n\s*", text[pos:])
                        if gap and out and out[-1].endswith((" ", "\n")):
                            pos += gap.end()
                        continue
                if got and end:
                    self.env[m[1]] = got[0]
                    pos = end.end()
                    rest = text[pos:]
                    gap = re.match(r"\n\s*", rest)
                    if gap and out and out[-1].endswith((" ", "\n")):
                        pos += gap.end()
                    continue
                self.env.pop(m[1], None)
                out.append(m[0])
                pos = m.end()
                continue
            here = text[pos]
            if here == "(" :
                got = self.place_at(text, pos)
                if got and got[1] < len(text) + 1:
                    fields, end = self.fields(text, got[1])
                    if fields or True:
                        out.append(self.named(got[0], fields))
                        pos = end
                        continue
            m = word.match(text, pos)
            if m and (pos == 0 or not re.match(r"[\w'.-]", text[pos - 1])):
                if m[0] in self.ways and text[m.end():m.end() + 1] == " ":
                    got = self.place_at(text, m.end() + 1)
                    if got:
                        out.append(self.named(self.ways[m[0]](got[0]), []))
                        pos = got[1]
                        continue
                if m[0] in self.env and not re.match(r"\s*=[^=]|\s*:", text[m.end():m.end() + 4]):
                    alias = self.env[m[0]]
                    if isinstance(alias, tuple):
                        fields, end = self.fields(text, m.end())
                        out.append(self.named(self.own, list(alias) + fields))
                        pos = end
                        continue
                    got = self.place_at(text, pos)
                    fields, end = self.fields(text, got[1])
                    out.append(self.named(got[0], fields))
                    pos = end
                    continue
                out.append(m[0])
                pos = m.end()
                continue
            m2 = re.compile(rf"\.(?:{WORD}|\d+)").match(text, pos)
            if m2:
                out.append(m2[0])
                pos = m2.end()
                continue
            out.append(here)
            pos += 1
        return "".join(out)


def tuple_parts(body):
    """The parts of a body that is one tuple, or None."""
    s = body.strip()
    if not (s.startswith("(") and s.endswith(")")):
        return None
    depth, parts, now = 0, [], ""
    for i, ch in enumerate(s):
        if ch in "({[":
            depth += 1
            if depth == 1 and ch == "(":
                continue
        if ch in ")}]":
            depth -= 1
            if depth == 0:
                if i != len(s) - 1:
                    return None
                break
        if ch == "," and depth == 1:
            parts.append(now)
            now = ""
            continue
        now += ch
    if now.strip():
        parts.append(now)
    return [p.strip() for p in parts] if len(parts) > 1 else None


def after_lets(body):
    """A body's lets, and what they are over."""
    i = 0
    while True:
        m = re.compile(r"\s*let ").match(body, i)
        if not m:
            return body[:i], body[i:]
        depth, j = 0, m.end()
        found = None
        nest = 0
        while j < len(body):
            ch = body[j]
            if ch in "({[":
                depth += 1
            elif ch in ")}]":
                depth -= 1
            elif depth == 0 and re.match(r"let\b", body[j:j + 4]) and not re.match(r"[\w.]", body[j - 1]):
                nest += 1
            elif depth == 0 and re.match(r"in\b", body[j:j + 3]) and not re.match(r"[\w.'-]", body[j - 1]):
                if nest == 0:
                    found = j + 2
                    break
                nest -= 1
            j += 1
        if found is None:
            return body[:i], body[i:]
        i = found


def clause_record(names, body):
    """A tuple over clauses as a record by their names."""
    lets, core = after_lets(body)
    parts = tuple_parts(core)
    want, given = list(names), []
    while len(want) > 1:
        if parts is None:
            if given and re.match(r"(omega|search|grind|simp)\b", last):
                given += [last] * len(want)
                want = []
                break
            return None
        if len(parts) == len(want):
            given += parts
            want = []
            break
        if len(parts) == 2:
            given.append(parts[0])
            want = want[1:]
            if len(want) == 1:
                given.append(parts[1])
                want = []
                break
            last = parts[1]
            parts = tuple_parts(last)
            continue
        return None
    if want:
        return None
    return lets + ("\n    " if lets.strip() else "") + "record {\n" + "".join(f"      {n} = {g};\n" for n, g in zip(names, given)) + "    }"


def params_of(crate, folder):
    """The names of the parameters of the function that a folder of proofs is of."""
    for src in sorted((ROOT / "crates" / crate / "src").glob("**/*.rt")):
        parts = folder.relative_to(ROOT / "crates" / crate / "proofs").parts
        if len(parts) > 1 and src.stem != parts[-2] and src.stem not in ("lib", "main"):
            continue
        m = re.search(rf"\bfn {parts[-1].lstrip('+')}(?:<[^>]*>)?\(([^)]*)\)", src.read_text())
        if m:
            return [p.split(":")[0].replace("mut ", "").strip().lstrip("&") for p in m[1].split(",") if p.strip()]
    return []


TRIVIAL = re.compile(r"^search \(?rules\)?$")


def convert(path, entry, crate):
    fn = Fn(entry)
    fn.params = params_of(crate, path.parent)
    text = path.read_text()
    where = str(path.relative_to(ROOT))
    head, uses, defs = [], [], []
    for b in blocks(text):
        if b.startswith("--"):
            (defs if (uses or defs) else head).append(("comment", b) if (uses or defs) else b)
        elif b.startswith("use "):
            uses.append(b)
        else:
            defs.append(("def", b))
    # pair signatures with equations
    sigs, order, comments = {}, [], []
    i = 0
    items = []
    for kind, b in defs:
        if kind == "comment":
            comments.append(b)
            continue
        m = re.match(rf"((?:abbrev |unfoldable |pub )*)({WORD})( [^:=]*)? :\s*(.*)", b, re.S)
        line1 = b.split("\n")[0]
        is_sig = m and not re.match(rf"(?:(?:abbrev|unfoldable|pub) )*{WORD}(?: [^=:(){{}}]*)* = ", line1)
        if is_sig:
            items.append({"name": m[2], "marks": m[1], "sig": m[4].strip(), "full": b, "eqs": [], "unfolding": "", "comment": comments})
            comments = []
        elif b.startswith("unfolding ") and items:
            # an unfolding line stands at column 0, and so does the equation behind it
            items[-1]["unfolding"] = b
        elif items:
            items[-1]["eqs"].append(b)
        else:
            said.append(f"{where}: a piece that no signature begins: {line1[:80]}")
    ways = {}

    def way_of(place_name, body_befores):
        return lambda i: walk(i, body_befores)

    def walk(i, n):
        for _ in range(n):
            i = fn.parent(i)
        return i

    inv_out, ans_out = [], []
    asked_places, helpers = set(), {}
    # first the ways
    for it in items:
        if re.match(r"^tie\.\S+ → tie\.\S+$", it["sig"]):
            eq = it["eqs"][0]
            m = re.match(rf"{WORD} c = (.*)$", eq, re.S)
            target = fn.place(it["sig"].split("→")[1].strip()[4:])
            if target is None:
                said.append(f"{where}: way {it['name']} to {it['sig']}")
            ways[it["name"]] = (lambda t: (lambda i: t))(target)
            it["kind"] = "way"
    for it in items:
        name, sig = it["name"], it["sig"]
        if it.get("kind") == "way":
            continue
        note = "".join(c + "\n" for c in it["comment"])
        if "statement M" in sig:
            continue
        inv = re.match(r"tie\.(?:invariant|InvT|decreases|MeasureT)[-_]([\w]+)$", sig)
        if inv:
            kind = "invariant" if re.match(r"tie\.(invariant|InvT)", sig) else "decreases"
            loop = next((l for l in entry["loops"] if norm(l[0][0]) == norm(inv[1])), None)
            if not loop:
                said.append(f"{where}: no loop {inv[1]} among {[l[0] for l in entry['loops']]}")
                continue
            at = entry["loops"].index(loop)
            changed = entry["changed"][at] if at < len(entry["changed"]) else [False] * len(loop[1])
            live = loop[1]
            eq = it["eqs"][0]
            m = re.match(rf"{WORD}((?: \S+)*?) =\s*(.*)$", eq, re.S)
            args, body = m[1].split(), m[2]
            want = len(live) + sum(changed)
            sub = {}
            if len(args) != want:
                said.append(f"{where}: {kind} of {loop[0][1]} has {len(args)} names, wanted {want}: {live} {changed}")
                body = "TURN " + body
            else:
                k = len(live)
                for j, (a, v) in enumerate(zip(args[:len(live)], live)):
                    if changed[j]:
                        sub[a] = f"l.initial.{v}"
                        sub[args[k]] = f"l.{v}"
                        k += 1
                    else:
                        sub[a] = f"l.{v}"
            bound = set(re.findall(rf"\(({WORD}) :", body)) | set(re.findall(rf"λ ({WORD})\.", body))
            for b in bound & set(sub):
                said.append(f"{where}: {kind} binds {b}, which is a live variable too")

            def one(m, sub=sub, bound=bound):
                w = m[0]
                if w in sub and w not in bound and not re.match(r" = ", body[m.end():m.end() + 3]):
                    return sub[w]
                return w
            body = re.sub(rf"(?<![\w'.-]){WORD}", one, body)
            new = f"{kind}-{loop[0][1]}"
            unf = it["unfolding"] + "\n" if it["unfolding"] else ""
            inv_out.append(f"{note}abbrev pub {new} : goal.{new}\n{unf}{new} l = {body}")
            continue
        need = re.match(r"tie\.Need-(\S+)", sig)
        if need:
            k = fn.need(name)
            if k is None:
                k = fn.need(need[1])
            if len(it["eqs"]) != 1:
                said.append(f"{where}: {name} has {len(it['eqs'])} equations")
                continue
            m = re.match(rf"{WORD}((?: \S+)*?) =\s*(.*)$", it["eqs"][0], re.S)
            params, body = m[1].split(), m[2].strip()
            if k is None:
                if not TRIVIAL.match(body) and not re.match(r"^search \(rules, \w+\)$", body):
                    said.append(f"{where}: no goal for {name}: {body[:100]}")
                continue
            if TRIVIAL.match(body) and not it["unfolding"]:
                continue
            new = fn.needs[k][1]
            own = fn.place(entry["asked_at"][k][0])
            if own is None:
                said.append(f"{where}: no place {entry['asked_at'][k][0]}")
                continue
            env = {params[0]: own} if params else {}
            t = Turn(fn, ways, f"{where}: {new}", env, new, own)
            body = t.turn(body).strip()
            # of `!x` the test says what it says of x
            body = re.sub(rf"not-(true|false) (?:_|{WORD}(?:\.{WORD})*) (c\.if-not-[\w-]*\.\1)", r"\2", body)
            body = re.sub(r"\((c\.if-not-[\w.-]*)\)", r"\1", body)
            extra = [p for p in params[1:] if p != "κs"]
            if "κs" in params and re.search(r"\bκs\b", body):
                said.append(f"{where}: {new} uses κs")
            asked = entry["asked"].get(new) or entry["asked"].get(fn.needs[k][0])
            if asked and len(asked) > 1 and not body.startswith("search"):
                rec = clause_record(asked, body)
                if rec is None and body == "c.requires":
                    rec = "record { " + "; ".join(f"{n} = c.requires.{n}" for n in asked) + " }"
                if rec is None:
                    said.append(f"{where}: {new} is asked {asked}: {body[:80]!r}")
                else:
                    body = rec
            unf = it["unfolding"] + "\n" if it["unfolding"] else ""
            gap = "\n    " if "\n" in body and not body.startswith(("record", "(")) else " "
            ans_out.append(f"{note}pub {new} : goal.{new}\n{unf}{new} {' '.join(['c'] + extra)} ={gap}{body}")
            continue
        # helpers
        few = re.match(rf"\([^()]* : ℕ\) → decreases[-_](\w+) [^≤]*(≤ .*)$", sig)
        if few:
            loop = next(l for l in entry["loops"] if norm(l[0][0]) == norm(few[1]))[0][1]
            body = re.match(rf"{WORD}((?: \S+)*?) =\s*(.*)$", it["eqs"][0], re.S)[2]
            inv_out.append(f"{note}{it['marks']}{name} : (l : goal.Live-{loop}) → decreases-{loop} l {few[2]}\n{name} l = {body}")
            continue
        over = re.match(r"(?:\(c : tie\.([\w-]+)(?: \w+)*\)|tie\.([\w-]+)) →\s*(.*)$", sig, re.S)
        if over and len(it["eqs"]) == 1:
            own = fn.place(over[1] or over[2])
            if own is None:
                said.append(f"{where}: helper {name}: no place {over[1] or over[2]}")
            else:
                shown = fn.by_name[own]
                asked_places.add(shown)
                helpers[name] = own
                t = Turn(fn, ways, f"{where}: helper {name}", {"c": own}, "HELPER", own)
                m = re.match(rf"{WORD}((?: \S+)*?) =\s*(.*)$", it["eqs"][0], re.S)
                rest, body = t.turn(over[3]), t.turn(m[2]).strip()
                unf = it["unfolding"] + "\n" if it["unfolding"] else ""
                binder = f"(c : {shown})" if re.search(r"\bc\b", rest) else shown
                gap = "\n    " if "\n" in body and not body.startswith(("record", "(")) else " "
                if "HELPER" in rest + body:
                    said.append(f"{where}: helper {name} goes from place to place, by hand")
                ans_out.append(f"{note}{it['marks']}{name} : {binder} → {rest}\n{unf}{name}{m[1]} ={gap}{body}")
                continue
        full = it["full"] + ("\n" + it["unfolding"] if it["unfolding"] else "") + "".join("\n" + e for e in it["eqs"])
        if "tie." in full or any(w in full.split() for w in ways):
            said.append(f"{where}: helper {name} over a place, by hand")
            full = "-- TURN\n" + full
        ans_out.append(note + full)
    comment = "\n".join(head)
    folder = path.parent

    def module(out, last):
        body = "\n\n".join(out)
        words = set(re.findall(rf"{WORD}|◌\S*?◌|[^\s(){{}},.;]+", body))
        lines = []
        for u in uses:
            m = re.match(r"(?:pub )?use (\S+)\.\{([^}]*)\}$", u.replace("\n", " "))
            if re.search(r"\.(Tie|Statement)\b", u):
                continue
            if not m:
                lines.append(u)
                continue
            keep = []
            for n in (x.strip() for x in m[2].split(",")):
                if not n:
                    continue
                shown = n.split(" as ")[-1].strip()
                ops = [p for p in shown.split("◌") if p]
                if (shown in words) if not ops else all(p in body for p in ops):
                    keep.append(n)
            if keep:
                lines.append(f"use {m[1]}.{{{', '.join(keep)}}}")
        rel = ".".join(folder.relative_to(ROOT / "crates" / crate / "proofs").parts)
        asked_places.update(re.findall(r"\(goal\.at\.[\w-]+ c\)\.([\w-]+)", body))
        if asked_places and last == "Goals":
            lines.append(f"use Rattle.{crate}.proofs.{rel}.Goals.{{{', '.join(sorted(asked_places))}}}")
        lines.append(f"use Rattle.{crate}.proofs.{rel}.{last} as goal")
        return comment + "\n" + "\n".join(lines) + "\n\n" + body + "\n"

    if inv_out:
        (folder / "Invariants.antt").write_text(module(inv_out, "Given"))
    if ans_out:
        (folder / "Answers.antt").write_text(module(ans_out, "Goals"))
    path.unlink()


def main(names, crates):
    only = [c for c in crates if "/" in c]
    crates = [c for c in crates if "/" not in c] or sorted({c.split("/")[0] for c in only})
    for crate in crates or sorted(p.name for p in (ROOT / "crates").iterdir()):
        listed = Path(names) / "crates" / crate / "names.json"
        if not listed.exists():
            said.append(f"{crate}: no names")
            continue
        d = json.loads(listed.read_text())
        for path in sorted((ROOT / "crates" / crate / "proofs").glob("**/Proof.antt")):
            rel = ".".join(path.parent.relative_to(ROOT / "crates" / crate / "proofs").parts)
            entry = d.get(f"Rattle-{crate}-proofs.{rel}.Lts")
            if only and f"{crate}/{rel}" not in only:
                continue
            if not entry:
                said.append(f"{path.relative_to(ROOT)}: no entry {rel}")
                continue
            if "tie.close" not in path.read_text():
                said.append(f"{path.relative_to(ROOT)}: a walk, by hand")
                continue
            convert(path, entry, crate)
    print("\n".join(said))


if __name__ == "__main__":
    if len(sys.argv) < 2 or "--help" in sys.argv:
        print(__doc__)
    else:
        main(sys.argv[1], sys.argv[2:])
