#!/usr/bin/env python3
"""Spells this repository's own definitions and lemmas as the toolchain's guides do: words in snake case, types in upper camel case.

usage: python3 tools/spell.py [--check]      at the top; --check writes nothing and prints the table, and the names that fall together

A name is ours where specs/*.antt or proofs/*.antt declares it, as a definition, a lemma, a field or a constructor. Turned are
  mostGiven -> most_given      a dash joins two names of definitions, and elsewhere becomes an underscore: account-is -> account_is, bytes-length stays
  first-largest -> first_largest_lem      a lemma that would have a definition's name
  Demand-1 -> Demand1          a type keeps its capital and loses its dashes; a case of the table keeps its letter, D-passes -> D_passes
  ASK-REVERSAL -> ASK_REVERSAL the words of the tables stay in capitals, as a constant does
Names of src/ keep their spelling. So do the names that the toolchain makes of them, which end in a part such as -requires or follow goal., tie. or c.
"""
import collections
import os
import re
import sys

JOINED = {"length", "append", "set", "take", "drop", "min", "max", "sum", "map", "leb", "ltb", "eqb", "replicate", "get_or", "add", "mul", "sub", "abs"}
WORD = r"[^\s(){}.;,@\"«»\[\]`:]+"
DECLARED = re.compile(rf"^(?:(?:abbrev|unfoldable|instance|pub|data|record|private)\s+)*({WORD})(?:\s+[^:]*)?\s:(?=\s|$)")
MEMBER = re.compile(rf"^\s+(?:pub\s+)?((?:{WORD}\s+)*{WORD})\s+:\s")


def files(*ends):
    for top in ("crates", "docs", "tests", "README.md"):
        if os.path.isfile(top):
            yield top
        for folder, dirs, names in os.walk(top):
            dirs[:] = sorted(d for d in dirs if d != "out")
            for n in sorted(names):
                if n.endswith(ends):
                    yield os.path.join(folder, n)


def text(p):
    with open(p, encoding="utf-8") as f:
        return f.read()


def own():
    """Each name that specs/*.antt or proofs/*.antt declares, with 'top' for one declared at the left of a line in specs/, else 'in'."""
    found = {}
    for p in files(".antt"):
        folder = os.path.basename(os.path.dirname(p))
        if folder not in ("specs", "proofs", "Walk") and "/specs/" not in p:
            continue
        inside = None
        for line in text(p).split("\n"):
            if line.lstrip().startswith(("--", "use ")):
                continue
            m = DECLARED.match(line)
            if m and not line.startswith(" "):
                if m[1] not in ("use", "pub", "unfolding"):
                    found.setdefault(m[1], "top" if "/specs/" in p else "in")
                inside = line.rstrip().endswith("where")
                continue
            if line and not line.startswith(" "):
                inside = False
            if inside:
                m = MEMBER.match(line)
                if m:
                    for n in m[1].split():
                        found.setdefault(n, "in")
    return found


def snake(n):
    n = re.sub(r"(?<=[a-z0-9])([A-Z])(?=[a-z]|$|['0-9-])", lambda m: "_" + m[1].lower(), n)
    return re.sub(r"(?<=[a-z0-9])([A-Z])", lambda m: "_" + m[1].lower(), n)


def new_name(n, names, words):
    if not re.fullmatch(r"[A-Za-z][\w'-]*", n):
        return n
    if n.upper() == n:
        return n.replace("-", "_")
    if re.match(r"[A-Z]-", n):
        return n.replace("-", "_")
    if n[0].isupper():
        return n.replace("-", "")
    parts = n.split("-")
    if len(parts) == 2 and all(q in words for q in parts):
        return "-".join(snake(q) for q in parts)
    return snake(n).replace("-", "_")


def main():
    names = own()
    words = JOINED | {n for n, where in names.items() if where == "top" and "-" not in n and n[:1].islower()}
    table = {n: new_name(n, names, words) for n in names}
    table = {a: b for a, b in table.items() if a != b}
    made = collections.defaultdict(set)
    for n in names:
        made[table.get(n, n)].add(n)
    for b, olds in sorted(made.items()):
        camels = [n for n in olds if re.search("[a-z][A-Z]", n)]
        firm = camels or [n for n in olds if n == b]
        if len(olds) > 1:
            for n in olds - set(firm):
                table[n] = b + "_lem"
            print("falls together:", b, "<-", ", ".join(sorted(olds)))
    code = set()
    for p in files(".rt"):
        code |= set(re.findall(r"\b[a-z]\w*\b", re.sub(r"ghost use[^;]*;|//[^\n]*", "", text(p))))
    for a, b in sorted(table.items()):
        if b in code:
            print("also in code:", a, "->", b)
    if "--check" in sys.argv:
        for a, b in sorted(table.items()):
            print(f"{a}\t{b}")
        return
    camel = {a: b for a, b in table.items() if re.search("[a-z][A-Z]|^[A-Z]+-[A-Z]+$", a)}
    spelled = lambda t: lambda m: t.get(m[0], m[0])
    for p in files(".antt", ".rt", ".edit", ".md"):
        old = text(p)
        if p.endswith(".antt") and (os.path.basename(os.path.dirname(p)) in ("specs", "proofs", "Walk") or "/specs/" in p):
            new = re.sub(r"[A-Za-z][\w'-]*", spelled(table), old)
        elif p.endswith(".antt"):
            new = re.sub(r"(?<![\w.])(?:(?:goal|tie|need|c)\.)?[A-Za-z][\w'-]*|[A-Za-z][\w'-]*", spelled(table), old)
            new = re.sub(r"(?<![\w.-])([a-z][\w-]*)-spec(?![\w-])", lambda m: m[1].replace("-", "_") + "_spec", new)
        elif p.endswith(".rt"):
            new = re.sub(r"[A-Z]+-[A-Z]+|[A-Za-z]\w*'?", spelled(camel), old)
            new = re.sub(r'//[^\n]*|"(?:\\.|[^"\\])*"|[A-Za-z]\w*(?:-\w+)+\'?', spelled(table), new)
            new = re.sub(r"ghost use[^;]*;", lambda m: re.sub(r"[A-Za-z][\w'-]*", spelled(table), m[0]), new)
        elif p.endswith(".edit"):
            new = re.sub(r"[A-Za-z]\w*'?", spelled(camel), old)
        else:
            new = re.sub(r"`[^`\n]*`", lambda m: re.sub(r"[A-Za-z][\w'-]*", spelled(table), m[0]), old)
        if new != old:
            with open(p, "w", encoding="utf-8") as f:
                f.write(new)


if __name__ == "__main__":
    main()
