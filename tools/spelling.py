#!/usr/bin/env python3
"""Brings the repository's own words of specs/ and proofs/ to snake case: `soundBy` and `sound-by` become `sound_by`.

usage: tools/spelling.py [--say]      at the top of the repository; --say only lists what would change and what falls together

Definitions, lemmas, fields, constructors and bound names change, in .antt files, in clauses and comments of .rt files and in
must-fail edits. Names of a library, names that the check makes (those of a function's proof) and strings keep their spelling.
Where a lemma would get the name of a definition, it gets `_lem` after it. It was run once, when the repository came to the
Rattle that spells its words so (docs/PORT.md); docs/ are turned by `tools/spelling.py --docs`, from the table that it keeps.
"""

import collections
import glob
import json
import os
import re
import sys

TABLE = "tools/spelling.json"
WORD = re.compile(r"[A-Za-z_][A-Za-z0-9_'₀-₉]*(?:-[A-Za-z0-9_'₀-₉≢≡≤<+*]+)*")
MADE = re.compile(r"^(Need|After|Then|Else|In|At|Is|Inv|InvT|MeasureT)-")
KEBAB = re.compile(r"[A-Za-z0-9_'₀-₉]-[A-Za-z0-9_'₀-₉]")
CAMEL = re.compile(r"^[a-z][a-z0-9_']*[A-Z]")
BOUND = {"callsAfter", "minutesAfter", "done-by", "e-back", "e-ordinary", "e-there", "e-wait", "l-back", "l-ordinary", "l-there", "l-wait", "calm-k", "few-k", "cycle-of", "found-pair", "one-off", "ordinary-kind", "same-v", "the-pair", "wait-link"}
DEFINED = re.compile(r"^(\s*)((?:unfoldable |abbrev |pub |opaque )*)(data |record )?([^\s(){}:;.,]+)(?:\s+\([^)]*\))*\s+:\s")


def snake(n):
    if CAMEL.match(n):
        n = re.sub(r"(?<=[a-z0-9])([A-Z])", lambda m: "_" + m.group(1).lower(), n)
    return n.replace("-", "_")


def turned(n):
    return bool(KEBAB.search(n) or CAMEL.match(n))


def files():
    for kind in ("specs", "proofs"):
        yield from glob.glob(f"crates/*/{kind}/**/*.antt", recursive=True)


def crates():
    return {os.path.basename(c) for c in glob.glob("crates/*")}


def read(f):
    with open(f, encoding="utf-8") as it:
        return it.read()


def of_library(text, own):
    """Names that a file takes from modules that are not the repository's."""
    found = set()
    for m in re.finditer(r"^\s*(?:pub |unfoldable )*use ([\w.+'-]+?)(?:\.\{([^}]*)\})?(?: as (\S+))?$", text, re.M):
        parts = m.group(1).split(".")
        if parts[0] == "Rattle" and len(parts) > 1 and parts[1] in own:
            continue
        for n in (m.group(2) or "").split(","):
            n = n.strip()
            if n:
                found.update(x.strip() for x in n.split(" as "))
    return found


def own_names():
    own, kinds = set(), collections.defaultdict(set)
    for f in files():
        t = read(f)
        proof = f.endswith("/Proof.antt")
        for line in t.split("\n"):
            m = DEFINED.match(line)
            if not m or line.lstrip().startswith("--"):
                continue
            n = m.group(4)
            if proof and (" tie." in line or n.endswith("-spec")):
                kinds[n].add("made")
                continue
            own.add(n)
            kinds[n].add("spec" if "/specs/" in f else "proof")
    return own, kinds


def table():
    own, kinds = own_names()
    to = {}
    groups = collections.defaultdict(set)
    for n in own:
        groups[snake(n)].add(n)
    for s, ns in groups.items():
        if len(ns) == 1:
            n = next(iter(ns))
            if turned(n):
                to[n] = s
            continue
        camel = [n for n in ns if CAMEL.match(n)]
        keeps = camel[0] if camel else (s if s in ns else sorted(ns)[0])
        for n in ns:
            to[n] = s if n == keeps else s + "_lem"
    return {k: v for k, v in to.items() if k != v}, own, kinds


def swap(text, to, skip, proof, functions, comments):
    def word(m):
        n = m.group(0)
        if n in skip or MADE.match(n):
            return n
        before = m.string[m.start() - 1] if m.start() else ""
        if proof and before == "." and functions is not None:
            # a step of the code is named after the function that it calls
            if snake(n) in functions:
                return n
            base = re.search(r"([\w'₀-]+)\.$", m.string[: m.start()])
            if base and base.group(1) == "tie":
                return n
        if n in to and not turned(n):
            # a lemma that makes room for a definition: not a function's folder, nor a step
            if functions is None or before == ".":
                return n
        return to.get(n, n)

    out = []
    for line in text.split("\n"):
        head, sep, tail = line, "", ""
        if comments:
            at = line.find(comments)
            if at >= 0 and line[:at].count('"') % 2 == 0:
                head, sep, tail = line[:at], comments, line[at + len(comments):]
        parts = re.split(r'("(?:[^"\\]|\\.)*")', head)
        head = "".join(p if p.startswith('"') else WORD.sub(word, p) for p in parts)
        tail = re.sub(r"`([^`]+)`", lambda m: "`" + WORD.sub(word, m.group(1)) + "`", tail)
        tail = re.sub(r"\b[a-z]+[a-z0-9]*(?:[A-Z][a-z0-9]+)+\b", lambda m: to.get(m.group(0), m.group(0)), tail)
        out.append(head + sep + tail)
    return "\n".join(out)


def main(argv):
    own_crates = crates()
    functions = set()
    for f in glob.glob("crates/*/src/**/*.rt", recursive=True):
        functions.update(re.findall(r"\bfn (\w+)", read(f)))
    if "--docs" in argv:
        to = json.loads(read(TABLE))
        own, _ = own_names()

        def word(w):
            n = w.group(0)
            # some words were turned by the kit's script already
            if not turned(n):
                return n
            return to.get(n) or (snake(n) if turned(n) and snake(n) in own and n not in own else n)

        for f in ["README.md"] + glob.glob("docs/*.md") + glob.glob("docs/landings/*.md") + glob.glob("*/README.md"):
            if f in ("docs/PORT.md",):
                continue
            t = read(f)
            new = re.sub(r"`([^`\n]+)`", lambda m: "`" + WORD.sub(word, m.group(1)) + "`", t)
            if new != t:
                with open(f, "w", encoding="utf-8") as it:
                    it.write(new)
        return 0
    to, own, kinds = table()
    # names bound in a file alone
    local = collections.Counter()
    for f in files():
        t = read(f)
        if f.endswith("/Proof.antt"):
            continue
        skip = of_library(t, own_crates)
        for line in t.split("\n"):
            s = line.split("--")[0] if line.lstrip().startswith("--") else line
            for m in WORD.finditer(s):
                n = m.group(0)
                if turned(n) and n not in to and n not in skip and not MADE.match(n):
                    local[n] += 1
    for n in local:
        if n.endswith("-code") and n != "Below-code" or n in BOUND:
            to[n] = snake(n)
    if "--say" in argv:
        print(len(to), "names;", sum(v.endswith("_lem") for v in to.values()), "get _lem")
        print("not defined here:", sorted(local)[:400])
        print("fields that look like steps:", sorted(n for n in to if snake(n) in functions and KEBAB.search(n)))
    clash = 0
    for f in sorted(files()):
        t = read(f)
        proof = f.endswith("/Proof.antt") or "/proofs/" in f and (" as tie" in t)
        skip = of_library(t, own_crates)
        new = swap(t, to, skip, proof, functions, "--")
        names = collections.defaultdict(set)
        for line in t.split("\n"):
            if line.lstrip().startswith("--"):
                continue
            for m in WORD.finditer(line):
                n = m.group(0)
                names[n if n in skip else to.get(n, n)].add(n)
        for s, ns in names.items():
            if len(ns) > 1:
                clash += 1
                print("falls together in", f, s, sorted(ns))
        if "--say" not in argv and new != t:
            with open(f, "w", encoding="utf-8") as it:
                it.write(new)
    for f in sorted(glob.glob("crates/*/src/**/*.rt", recursive=True)) + sorted(glob.glob("crates/*/must-fail/*.edit") + glob.glob("crates/*/tried/*.edit")):
        t = read(f)
        new = swap(t, to, set(), False, None, "//" if f.endswith(".rt") else None)
        if "--say" not in argv and new != t:
            with open(f, "w", encoding="utf-8") as it:
                it.write(new)
    if "--say" not in argv:
        with open(TABLE, "w") as it:
            json.dump(dict(sorted(to.items())), it, indent=0, ensure_ascii=False)
            it.write("\n")
    print(clash, "names fall together")
    return 0


if __name__ == "__main__":
    raise SystemExit(main(sys.argv[1:]))
