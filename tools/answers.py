#!/usr/bin/env python3
"""Turns a function's older proof, which named each step by where it stood before the goal, into Invariants.antt and Answers.antt.

usage: tools/answers.py CRATE [FUNCTION ..]     at the top of the repository

It reads proofs/F/Proof.antt and, of `rt check --generated FOLDER --old-names`, which goal and which step has which name today.
What it can't place it says in a line `left:`. It was used when the repository came to today's Rattle (docs/PORT.md).
"""

import json
import os
import re
import subprocess
import sys

WORD = r"[A-Za-z_Λλμ][A-Za-z0-9_'₀-₉]*(?:-[A-Za-z0-9_'₀-₉≢≡≤<+*]+)*"


def norm(n):
    return n.replace("-", "_")


def blocks(text):
    """Top-level declarations: a signature line with the lines below it."""
    out, now = [], []
    for line in text.split("\n"):
        if line.strip() == "":
            if now:
                now.append(line)
            continue
        head = not line.startswith(" ")
        if head:
            starts_new = bool(re.match(r"(pub |abbrev |unfoldable |opaque )*(data |record )?\S+( \([^)]*\))* :( |$)", line)) or line.startswith("--") or line.startswith("use ") or line.startswith("open ")
            if starts_new and now and not (now[-1].startswith("--") and not line.startswith("use ")):
                out.append(now)
                now = []
        now.append(line)
    if now:
        out.append(now)
    return ["\n".join(b).rstrip() for b in out]


CLAUSES = {}


def clauses(root="crates"):
    """the names of each function's clauses, in their order: {"board::Board::take": {"ensures": [..], "requires": [..]}}"""
    import glob

    for f in glob.glob(f"{root}/*/src/**/*.rt", recursive=True):
        parts = f.split("/")
        crate = parts[1]
        mod = [] if parts[-1] in ("lib.rt", "main.rt") else [parts[-1][:-3]]
        owner = None
        fn = None
        for line in read(f).split("\n"):
            m = re.match(r"impl(?:<[^>]*>)? (?:\w+ for )?(\w+)", line)
            if m:
                owner = m.group(1)
            if line.startswith("}"):
                owner = None
            m = re.search(r"\bfn (\w+)", line)
            if m and not line.lstrip().startswith("//"):
                fn = "::".join([crate, *mod, *([owner] if owner else []), m.group(1)])
                CLAUSES[fn] = {"ensures": [], "requires": []}
            m = re.match(r"\s*(?:pub )?(ensures|requires)(?: (\w+))? \{", line)
            if m and fn:
                CLAUSES[fn][m.group(1)].append(m.group(2))


def named_clauses(fn, kind):
    """a function's clause names, wherever in its crate the text of it stands"""
    if not fn:
        return []
    if fn in CLAUSES:
        return CLAUSES[fn][kind]
    parts = fn.split("::")
    for n in (2, 1):
        found = [k for k in CLAUSES if k.split("::")[0] == parts[0] and k.split("::")[-n:] == parts[-n:]]
        if len(found) == 1:
            return CLAUSES[found[0]][kind]
    return []


def part_of(names, more):
    """projections `.1.1.0` of nested pairs, as the clause they name and what is left"""
    n = len(names)
    if n < 2 or not all(names):
        return more
    k = 0
    while k < len(more) and k < n - 1 and more[k] == "1":
        k += 1
    if k == n - 1:
        return [names[k], *more[k:]]
    if k < len(more) and more[k] == "0":
        return [names[k], *more[k + 1 :]]
    return more


def commas(s):
    """a parenthesised tuple's parts, or None"""
    s = s.strip()
    if not (s.startswith("(") and s.endswith(")")):
        return None
    depth, parts, now = 0, [], ""
    for i, ch in enumerate(s):
        if ch in "([{":
            depth += 1
            if depth == 1:
                continue
        if ch in ")]}":
            depth -= 1
            if depth == 0:
                if i != len(s) - 1:
                    return None
                continue
        if ch == "," and depth == 1:
            parts.append(now)
            now = ""
        else:
            now += ch
    if now.strip():
        parts.append(now)
    return [p.strip() for p in parts] if len(parts) > 1 else None


def as_record(rest, names):
    """a body that ends in a tuple of the clauses, as a record of them by name"""
    if len(names) < 2 or not all(names):
        return rest
    at = 0
    m = None
    for m in re.finditer(r"(^|\bin)(?=\s)", rest):
        pass
    # the text behind the last `in` of the outermost lets
    depth, last, i = 0, 0, 0
    while i < len(rest):
        ch = rest[i]
        if ch in "([{":
            depth += 1
        elif ch in ")]}":
            depth -= 1
        elif depth == 0 and re.match(r"\bin\s", rest[i:]) and (i == 0 or rest[i - 1] in " \n"):
            last = i + 2
        i += 1
    front, tail = rest[:last], rest[last:]
    parts = commas(tail)
    while parts and len(parts) < len(names):
        more = commas(parts[-1])
        if not more:
            return rest
        parts = parts[:-1] + more
    if not parts and re.match(r"\s*[a-z_]\w*\s", tail) and not re.match(r"\s*(?:record|rw|simp|let|elim|search|omega|grind|absurd|subst)\b", tail):
        n = len(names)
        row = "".join(f"      {x} = all" + ".1" * k + (".0" if k < n - 1 else "") + ";\n" for k, x in enumerate(names))
        return front + "\n    let all = " + tail.strip() + " in\n    record {\n" + row + "    }"
    if not parts or len(parts) != len(names):
        return rest
    return front + "\n    record {\n" + "".join(f"      {n} = {p};\n" for n, p in zip(names, parts)) + "    }"


class Places:
    def __init__(self, d):
        self.d = d
        self.parent, self.step = {}, {}
        self.arm = {}
        for (old, parent, (o, n), callee, _), arm in zip(d["places"], d["arms"]):
            self.parent[old] = parent
            self.step[old] = (o, n)
            self.arm[old] = arm
        self.callee = {r[0]: r[3] for r in d["places"]}
        self.args = {}
        for o, n in d["args"]:
            a, b = o.split(".")[-1], n.split(".")[-1]
            if a != b:
                self.args[a.strip()] = b.strip()

    def up(self, place, n):
        for _ in range(n):
            if place is None:
                return None
            place = self.parent.get(place)
        return place

    def parts(self, place, field, more):
        """`.new.1.0` of a call is now `.new.NAME`, by the callee's parameters"""
        if len(more) < 2 or more[0] not in ("new", "auto"):
            return more
        at = place
        while at is not None and norm(self.step[at][0]) != norm(field):
            at = self.parent.get(at)
        names = self.d["params"].get(self.callee.get(at) or "", None) if at else None
        if not names:
            return more
        k = 1
        while k < len(more) and more[k] == "1":
            k += 1
        if k < len(more) and more[k] == "0" and k - 1 < len(names):
            return [more[0], names[k - 1], *more[k + 1 :]]
        return more

    def in_arm(self, goal, place, field, more):
        """an arm's own name for a part of an older step: (name, how many projections it takes in)"""
        seen = []
        at = goal
        while at is not None:
            if self.arm.get(at):
                seen.append(self.arm[at])
            at = self.parent.get(at)
        for arm, _, rows in seen:
            best = None
            for new, step, path in rows:
                own = new.endswith("-own")
                if norm(step) == norm(field) and more[: len(path)] == path and (not own or re.match(r"keys\d*$|rest$", more[0] if more else "")):
                    if best is None or len(path) > best[1]:
                        best = (f"{arm}.{new}", len(path))
            if best:
                return best
        return None

    def find(self, place, field):
        at = place
        while at is not None:
            o, n = self.step[at]
            if o and norm(o) == norm(field):
                return n
            at = self.parent.get(at)
        return None

    def only(self, place, field):
        found = []
        at = place
        while at is not None:
            o, n = self.step[at]
            if o and norm(o) == norm(field):
                found.append(n)
            at = self.parent.get(at)
        return found[0] if len(found) == 1 else None


def goal_places(d):
    """goal's old names (all spellings) -> (new name, place)"""
    out = {}
    for (old, new), (place, _) in zip(d["needs"], d["asked_at"]):
        out.setdefault(norm(old), (new, place))
    return out


KINDS = "overflow|bounds|nonzero|slice_bounds|offset_bounds"


def goal_of(need, goals):
    n = norm(need)
    if n in goals:
        return goals[n]
    m = re.match(r"(?:overflow|nonzero|bounds|slice_bounds|offset_bounds)_(.*)$", n)
    if m and m.group(1) in goals:
        return goals[m.group(1)]
    return None


def read(f):
    with open(f, encoding="utf-8") as it:
        return it.read()


def lets(body):
    """variables that stand for c itself some steps before"""
    out = {"c": 0}
    for m in re.finditer(r"let (" + WORD + r") = (" + WORD + r")((?:\.before)*) in", body):
        if m.group(2) in out:
            out[m.group(1)] = out[m.group(2)] + m.group(3).count(".before")
    out.pop("c")
    return out


def paths(body, place, places, left, where):
    alias = lets(body)
    for a in alias:
        body = re.sub(r"let " + re.escape(a) + r" = " + WORD + r"(?:\.before)* in\s*", "", body)

    def change(m):
        name, befores, rest = m.group(1), m.group(2).count(".before"), m.group(3) or ""
        more = [x for x in (m.group(4) or "").split(".") if x]
        if name != "c" and name not in alias:
            return m.group(0)
        at = places.up(place, befores + alias.get(name, 0))
        if at is None and rest[1:] not in ("args", "ranges", "requires", "well_formed", "well-formed", "type_inv"):
            new = places.only(place, rest[1:]) if rest else None
            if new:
                return "c." + new + "".join("." + x for x in more)
            left.append(f"{where}: {m.group(0)} goes past the start")
            return m.group(0)
        if not rest:
            if befores or name in alias:
                left.append(f"{where}: {m.group(0)} alone")
            return "c"
        field = rest[1:]
        if field == "requires":
            more = part_of(named_clauses(places.own, "requires"), more)
        if field in ("args", "ranges", "requires", "well_formed", "well-formed", "type_inv"):
            return "c." + field + "".join("." + places.args.get(x, x) for x in more)
        known = re.match(r"shared[-_]slice[-_]known\d*$", field)
        if known and more[:1] == ["given"]:
            here = at
            while here is not None and norm(places.step[here][0]) != norm(field):
                here = places.parent.get(here)
            left.append(f"{where}: {m.group(0)}: c.type_inv.NAME with the slice's name")
        more = places.parts(at, field, more)
        if more[:1] == ["ensures"]:
            here = at
            while here is not None and norm(places.step[here][0]) != norm(field):
                here = places.parent.get(here)
            if here is None:
                here = place
                while here is not None and norm(places.step[here][0]) != norm(field):
                    here = places.parent.get(here)
            names = named_clauses(places.callee.get(here) or "", "ensures") if here else []
            more = ["ensures", *part_of(names, more[1:])]
        arm = places.in_arm(place, at, field, more)
        if arm:
            return "c." + arm[0] + "".join("." + x for x in more[arm[1] :])
        new = places.find(at, field)
        if new is None:
            # counted too far back: the only step of that name before the goal is meant
            new = places.only(place, field)
        if new is None and field[-1:].isdigit():
            new = places.find(at, field.rstrip("0123456789").rstrip("-_"))
        if new is None and field.endswith("_lem"):
            # the spelling took the step for a lemma
            new = places.find(at, field[: -len("_lem")])
        if new is None:
            # a lemma's spelling (tools/spelling.json) of a call's name
            new = places.find(at, re.sub(r"_lem$", "", field)) or places.find(at, field.lower())
        if new is None:
            if field in places.args:
                return "c." + places.args[field] + "".join("." + x for x in more)
            left.append(f"{where}: {m.group(0)} at {at}")
            return "c." + field + "".join("." + x for x in more)
        return "c." + new + "".join("." + x for x in more)

    names = "|".join(re.escape(a) for a in ["c", *alias])
    return re.sub(r"(?<![\w'.\-])(" + names + r")((?:\.before)*)(\." + WORD + r")?((?:\.(?:" + WORD + r"|\d+))*)(?![\w'₀-₉\-])", change, body)


def invariant(sig, body, old, new, vars_, changed, left, where):
    m = re.match(r"\s*(\S+)((?:\s+\S+)*?)\s*=(?= |\n)(.*)$", body, re.S)
    params = m.group(2).split()
    rest = m.group(3)
    n = len(vars_)
    to = {}
    extra = [v for v, ch in zip(vars_, changed) if ch]
    want = n + len(extra)
    by_name = {}
    if len(params) != want:
        # the code has other variables than it had: by their names, `x₀` at the loop's start
        for p in params:
            own = [v for v in vars_ if norm(v) == norm(p.rstrip("₀"))]
            if own:
                by_name[p] = ("l.initial." if p.endswith("₀") else "l.") + own[0]
        if [p for p in params if p not in by_name and p != "_"]:
            left.append(f"{where}: {old} takes {len(params)}, and {want} were looked for: {params} of {vars_} {changed}")
    for i, p in enumerate(params):
        if i < n:
            to[p] = ("l.initial." if changed[i] else "l.") + vars_[i]
        elif i - n < len(extra):
            to[p] = "l." + extra[i - n]
    to = by_name or to
    to.pop("_", None)
    names = "|".join(re.escape(p) for p in sorted(to, key=len, reverse=True))
    if names:
        rest = re.sub(r"(?<![\w'.\-₀-₉])(" + names + r")(?![\w'\-₀-₉]| = )", lambda m: to[m.group(1)], rest)
    return rest


def convert(crate, name, d):
    folder = f"crates/{crate}/proofs/{name}"
    f = f"{folder}/Proof.antt"
    text = read(f)
    left = []
    goals = goal_places(d)
    places = Places(d)
    places.own = f"{crate}::" + name.replace("/", "::")
    loops = {norm(o): (n, vs, ch) for ((o, n), vs), ch in zip(d["loops"], d["changed"])}
    comment, uses, inv, ans, helpers = [], [], [], [], []
    dropped = 0
    needs_not = []
    fn = name.split("/")[-1]
    for b in blocks(text):
        if b.startswith("use "):
            uses.append(b)
            continue
        lines = b.split("\n")
        k = 0
        while k < len(lines) and lines[k].startswith("--"):
            k += 1
        head = lines[:k]
        if k == len(lines):
            comment.append(b)
            continue
        sig = lines[k]
        i = k + 1
        mods = []
        while i < len(lines) and re.match(r"(unfolding|using|opening|irreducible) ", lines[i]):
            mods.append(lines[i])
            i += 1
        body = "\n".join(lines[i:])
        m = re.match(r"(?:abbrev |unfoldable |pub )*(\S+) : tie\.(\S+)", sig)
        if re.match(r"pub \S+[-_]spec :", sig):
            continue
        if not m:
            helpers.append(b)
            continue
        own, what = m.group(1), m.group(2)
        where = f"{folder}: {own}"
        mm = re.match(r"(invariant|decreases|InvT|MeasureT|Inv|μ)-(.*)$", what)
        if mm:
            key = norm(mm.group(2))
            kind = {"InvT": "invariant", "MeasureT": "decreases", "Inv": "invariant", "μ": "decreases"}.get(mm.group(1), mm.group(1))
            if key not in loops:
                left.append(f"{where}: no loop {key} among {list(loops)}")
                helpers.append(b)
                continue
            new, vs, ch = loops[key]
            rest = invariant(sig, body, own, new, vs, ch, left, where)
            inv.append("\n".join(head + [f"abbrev pub {kind}-{new} : goal.{kind}-{new}", *mods, f"{kind}-{new} l ={rest}"]))
            continue
        need = what.replace("Need-", "")
        g = goal_of(need, goals)
        if g is None:
            left.append(f"{where}: no goal for {what}; settled: {d['settled']}")
            continue
        new, place = g
        bm = re.match(r"(\S+)((?:\s+(?!=)\S+)*)\s*=(?= |\n)(.*)$", body, re.S)
        if not bm:
            left.append(f"{where}: no body")
            continue
        params, rest = bm.group(2).split(), bm.group(3)
        rest = rest.strip("\n")
        if rest.strip() in ("search rules", "omega arith") and not mods:
            dropped += 1
            continue
        params = [p for p in params if p not in ("κs",)]
        if re.search(r"(?<![\w'.])κs(?![\w'])", rest):
            left.append(f"{where}: κs is used")
        rest = paths(rest, place, places, left, where).rstrip()
        # a test of `!x` says today what x is
        called = {n: places.callee.get(old) for old, (_, n) in places.step.items()}
        for m in list(re.finditer(r"let (" + WORD + r") = c\.([\w\-]+)\.ensures in", rest)):
            names = named_clauses(called.get(m.group(2)) or "", "ensures")
            if len(names) > 1 and all(names):
                rest = re.sub(r"(?<![\w'.\-])" + re.escape(m.group(1)) + r"((?:\.[01])+)(?![\w])", lambda k: m.group(1) + "".join("." + x for x in part_of(names, k.group(1).split(".")[1:])), rest)
        for m in list(re.finditer(r"let (" + WORD + r") = c\.([\w\-]+) in", rest)):
            names = named_clauses(called.get(m.group(2)) or "", "ensures")
            if len(names) > 1 and all(names):
                rest = re.sub(r"(?<![\w'.\-])" + re.escape(m.group(1)) + r"\.ensures((?:\.[01])+)(?![\w])", lambda k: m.group(1) + ".ensures" + "".join("." + x for x in part_of(names, k.group(1).split(".")[1:])), rest)
        # a method of std names its clause
        rest = re.sub(r"(c\.wrapping_\w+_u\w+(?:-\w+)?\.ensures)(?!\.)", r"\1.value", rest)
        # how long an array field is stands in a value's type as it is
        rest = re.sub(r"rw length-map at (\w+(?:\.\w+)+)", r"\1", rest)
        before = rest
        rest = re.sub(r"not-(?:true|false) (?:_|[\w.\-]+|\([^()]*\)) (c\.[\w\-]*not[\w\-]*\.(?:true|false))", r"\1", rest)
        stripped = before != rest
        # (`rw` finds x itself in the goal)
        wrap = lambda m: m.group(0) if re.search(r"\brw (?:\([^()]*)?$", rest[: m.start()]) else f"(ap not {m.group(1)})"
        wrapped = re.sub(r"(?<![\w.])(c\.(?:if|loop)-not-[\w\-]*\.(?:true|false))", wrap, rest)
        if wrapped != rest and not stripped:
            rest = wrapped
            needs_not.append(1)
        if new.startswith("returns"):
            rest = as_record(rest, named_clauses(places.own, "ensures"))
        for a, b in places.args.items():
            rest = re.sub(r"(?<=\w)\." + re.escape(a) + r"(?![\w'\-])", "." + b, rest)
        rest = "\n    " + rest.strip() if "\n" in rest.strip() else " " + rest.strip()
        ans.append("\n".join(head + [f"pub {new} : goal.{new}", *mods, f"{new} {' '.join(params)} ={rest}"]))
    uses = [u for u in uses if not re.search(r"\.(Statement\.\{statement\}|Tie as tie)", u)]
    if needs_not:
        have = "\n".join(uses)
        if not re.search(r"[{ ]ap[,}]", have):
            uses.append("use mathlib.Core.Path.{ap}")
        if not re.search(r"[{ ]not[,}]", have):
            uses.append("use mathlib.Core.Bool.{not}")
    base = "Rattle." + crate + ".proofs." + name.replace("/", ".")
    head = "\n".join(comment)
    # what an invariant speaks of stands with it
    def named(b):
        m = re.search(r"^(?:pub |abbrev |unfoldable |opaque )*(?:data |record )?([^\s(){}:]+)(?: \([^)]*\))* :", b, re.M)
        return m.group(1) if m else None

    with_inv, text_inv = [], "\n".join(inv)
    for b in reversed(helpers):
        n = named(b)
        if n and re.search(r"(?<![\w'\-])" + re.escape(n) + r"(?![\w'\-])", text_inv):
            with_inv.insert(0, b)
            text_inv += b
    helpers = [b for b in helpers if b not in with_inv]
    shared = [named(b) for b in with_inv if any(re.search(r"(?<![\w'\-])" + re.escape(named(b)) + r"(?![\w'\-])", a) for a in ans + helpers)]

    def public(b):
        n = named(b)
        return "\n".join(
            (l if "pub " in l else re.sub(r"^((?:abbrev |unfoldable )?)", r"\1pub ", l)) if re.match(r"(?:abbrev |unfoldable )?(?:pub )?(?:data |record )?" + re.escape(n) + r"(?: \([^)]*\))* :", l) else l
            for l in b.split("\n")
        )

    inv = [public(b) for b in with_inv] + inv
    if inv:
        it = "\n".join(uses + [f"use {base}.Given as goal"])
        with open(f"{folder}/Invariants.antt", "w") as o:
            o.write((head + "\n" if head else "") + it + "\n\n" + "\n\n".join(inv) + "\n")
    if ans:
        it = "\n".join(uses + ([f"use {base}.Invariants.{{{', '.join(shared)}}}"] if shared else []) + [f"use {base}.Goals as goal"])
        with open(f"{folder}/Answers.antt", "w") as o:
            o.write((head + "\n" if head else "") + it + "\n\n" + "\n\n".join(helpers + ans) + "\n")
    elif helpers:
        left.append(f"{folder}: {len(helpers)} lemmas of its own have no answer to stand with")
    os.makedirs(os.path.dirname(f"/tmp/old/{crate}/{name}/Proof.antt"), exist_ok=True)
    os.replace(f, f"/tmp/old/{crate}/{name}/Proof.antt")
    for l in left:
        print("left:", l)
    print(f"turned: {folder}: {len(ans)} answers, {dropped} dropped, {len(inv)} for loops")


def main(argv):
    crate, only = argv[0], argv[1:]
    clauses()
    out = f"/tmp/names/{crate}"
    os.makedirs(out, exist_ok=True)
    r = subprocess.run(["rt", "check", "--generated", out, "--old-names"], cwd=f"crates/{crate}", capture_output=True, text=True)
    try:
        names = json.load(open(f"{out}/names.json"))
    except OSError:
        print(r.stdout[-3000:], r.stderr[-3000:])
        return 1
    for top, _, fs in os.walk(f"crates/{crate}/proofs"):
        if "Proof.antt" not in fs:
            continue
        name = os.path.relpath(top, f"crates/{crate}/proofs")
        if only and name not in only:
            continue
        key = f"Rattle-{crate}-proofs.{name.replace('/', '.')}.Lts"
        if key not in names:
            print("left:", name, "has no names; keys:", [k for k in names if k.split(".")[-2:-1] == [name.split("/")[-1]]])
            continue
        try:
            convert(crate, name, names[key])
        except Exception as e:
            print("left:", name, "failed:", repr(e))
    return 0


if __name__ == "__main__":
    raise SystemExit(main(sys.argv[1:]))
