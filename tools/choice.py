#!/usr/bin/env python3
"""Puts the library's own `if◌then◌else◌` in the place of ours, which `rt ci` refuses: ours took an `if` behind an `else` as it stood,
the library's wants it in parentheses.

usage: tools/choice.py          at the top of the repository, once (docs/PORT.md)
"""

import glob
import os
import re

TOKEN = re.compile(r"--[^\n]*|\"(?:[^\"\\]|\\.)*\"|[()\[\]{},;]|[^\s()\[\]{},;\"]+|\s+")
OPEN, CLOSE = "([{", ")]}"


def in_parentheses(text):
    """an `if` that stands right behind `else` or `then`, with all that belongs to it, in parentheses"""
    tokens = TOKEN.findall(text)
    assert "".join(tokens) == text, "a text was not taken apart"
    solid = [i for i, t in enumerate(tokens) if t.strip() and not t.startswith("--")]
    before = {i: tokens[j] for j, i in zip(solid, solid[1:])}
    puts = {}

    def indent(i):
        """how far in the line is, and whether the token begins it"""
        k = i
        while k > 0 and "\n" not in tokens[k - 1]:
            k -= 1
        blank = tokens[k - 1].rpartition("\n")[2] if k > 0 else ""
        return len(blank), k == i

    for i in solid:
        if tokens[i] != "if" or before.get(i) not in ("else", "then"):
            continue
        depth, ifs, last = 0, 0, i
        for j in solid[solid.index(i) :]:
            t = tokens[j]
            far, begins = indent(j)
            # the next declaration, or the next of a block's items
            if j != i and begins and t not in ("else", "then") and far <= indent(i)[0]:
                break
            if depth == 0 and (t in CLOSE or t in (",", ";", "|", "in") or (t == "else" and ifs == 0)):
                break
            if t in OPEN:
                depth += 1
            elif t in CLOSE:
                depth -= 1
            elif depth == 0 and t == "if":
                ifs += 1
            elif depth == 0 and t == "else":
                ifs -= 1
            last = j
        puts[i] = "(" + puts.get(i, "")
        puts[-last - 1] = puts.get(-last - 1, "") + ")"
    return "".join(puts.get(i, "") + t + puts.get(-i - 1, "") for i, t in enumerate(tokens))


def imports(text):
    """the one name is the library's: in its line of the Prelude where there is one"""
    line = re.compile(r"^use Rattle\.(?:numbers|plan)\.specs\.Choice\.\{if◌then◌else◌\}\n", re.M)
    if not line.search(text):
        return text
    rest = line.sub("", text)
    for m in re.finditer(r"^use Rattle\.std\.(?:specs\.Prelude|proofs\.Common)\.\{([^}]*)\}", rest, re.M):
        if "if◌then◌else◌" in m[1]:
            return rest
        if "specs.Prelude" in m[0]:
            return rest[: m.end() - 1] + ", if◌then◌else◌" + rest[m.end() - 1 :]
    return line.sub("use Rattle.std.specs.Prelude.{if◌then◌else◌}\n", text, count=1)


def clauses(text):
    """the clauses of a .rt file: what stands in braces behind requires, ensures or ghost"""

    def one(m):
        depth, i = 0, m.end() - 1
        while True:
            depth += {"{": 1, "}": -1}.get(text[i], 0)
            i += 1
            if depth == 0:
                return m.start(), i

    out, at = [], 0
    for m in re.finditer(r"(?m)^\s*(?:ensures|requires|ghost)\b[^\n{;]*\{", text):
        if m.start() < at or re.match(r"\s*ghost use", m[0]):
            continue
        a, b = one(m)
        out += [text[at:a], in_parentheses(text[a:b])]
        at = b
    return "".join(out) + text[at:]


def main():
    for f in sorted(glob.glob("crates/**/*", recursive=True)):
        if "/out/" in f or not f.endswith((".antt", ".rt")):
            continue
        with open(f, encoding="utf-8") as it:
            text = it.read()
        if f.endswith("/specs/Choice.antt"):
            os.remove(f)
            continue
        new = text
        if f.endswith("/specs/Lib.antt"):
            new = re.sub(r"(?m)^(?:pub )?mod Choice\n", "", new)
        if f.endswith(".antt"):
            new = imports(in_parentheses(new))
        else:
            new = clauses(new)
            ours = r"ghost use Rattle\.(?:numbers|plan)\.specs\.Choice\.\{if◌then◌else◌\};\n"
            if re.search(ours, new):
                rest = re.sub(ours, "", new)
                m = re.search(r"ghost use Rattle\.std\.specs\.Prelude\.\{([^}]*)\};", rest)
                new = rest[: m.end() - 2] + ("" if "if◌then◌else◌" in m[1] else ", if◌then◌else◌") + rest[m.end() - 2 :] if m else re.sub(ours, "ghost use Rattle.std.specs.Prelude.{if◌then◌else◌};\n", new)
        if new != text:
            with open(f, "w", encoding="utf-8") as it:
                it.write(new)
    for f in glob.glob("crates/*/must-fail/*.edit"):
        with open(f, encoding="utf-8") as it:
            text = it.read()
        if re.search(r"\belse if\b", text) or "specs.Choice" in text:
            print("look at:", f)


if __name__ == "__main__":
    main()
