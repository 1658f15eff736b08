#!/usr/bin/env python3
"""Brings the names of this repository's definitions and lemmas to today's spelling: words in snake case, types in camel case.

usage: python3 tools/respell.py [--dry]       at the top of the repository, once, after the toolchain's own port.py

A name is taken for one of this repository's if a file of specs/ or proofs/ declares it: by a line 'NAME :', as a record, as a field, as an argument or by
'let', or if a trait of src/ declares it as a ghost member. Names that the library has, and names that the prover makes, are declared nowhere here and
keep their dashes. In src/ only clauses, ghost items and their imports are respelled. What would fall together with another name is listed and left.
"""
import os
import re
import sys

TOKEN = re.compile(r"[^\W\d][\w'\-]*")
KEYWORDS = set("abbrev pub unfoldable record data module let where use as in elim rw omega grind simp search infixl infixr infix syntax mod ruleset variable λ do if then else absurd".split())
# Ghost members of a trait that would fall together with its methods.
SPECIAL = {"fromNumber": "width_of_number", "glyphNumber": "number_of_glyph"}
LIBRARY = ("Rattle.std.", "lib.", "mathlib.", "Prim.", "native.", "Mathlib.")


def files():
    for folder, dirs, names in os.walk("crates"):
        dirs[:] = sorted(d for d in dirs if d != "out")
        for name in sorted(names):
            if name.endswith((".rt", ".antt")):
                yield os.path.join(folder, name)


def respelled(name):
    """The name in today's spelling: camel case where it begins with a capital, else snake case."""
    if name in SPECIAL:
        return SPECIAL[name]
    parts = [p for p in name.split("-") if p]
    if name[0].isupper() and len(parts[0]) > 1:
        return parts[0] + "".join(p[0].upper() + p[1:] for p in parts[1:])
    snake = "_".join(parts)
    return re.sub(r"(?<=[a-z0-9])([A-Z])(?=[a-z]|$|_)", lambda m: "_" + m.group(1).lower(), snake)


def wants_it(name):
    return ("-" in name.strip("-") and not name.endswith("-")) or re.match(r"[a-z][a-z0-9]*[A-Z]", name) is not None


def without_comments(text):
    return re.sub(r"(?m)(?<!\S)--(?!-*\w).*$", "", text)


def declared(text):
    """The names that a file of specs/ or proofs/ declares."""
    text = without_comments(text)
    found = set()
    for m in re.finditer(r"(?m)^[ \t]*((?:(?:abbrev|pub|unfoldable|record|data|ruleset)[ \t]+)*)((?:[^\W\d][\w'\-]*[ \t]+)*?)([^\W\d][\w'\-]*)[ \t]*(?=:|\(|\{|=|where)([^\n]*)", text):
        rest = m.group(4)
        names = m.group(2).split() + [m.group(3)]
        if re.match(r":\s*goal\.", rest):
            continue
        if rest.startswith(":") or "record" in m.group(1) or "data" in m.group(1) or "ruleset" in m.group(1):
            found |= set(names)
    for m in re.finditer(r"\blet[ \t]+([^\W\d][\w'\-]*)[ \t]*[:=]", text):
        found.add(m.group(1))
    for m in re.finditer(r"[({][ \t]*((?:[^\W\d][\w'\-]*[ \t]+)+):[ \t]", text):
        found |= set(m.group(1).split())
    for m in re.finditer(r"λ[ \t]+((?:[^\W\d][\w'\-]*[ \t]*)+)\.", text):
        found |= set(m.group(1).split())
    for m in re.finditer(r"(?m)^[ \t]*(?:pub[ \t]+)?use[ \t]+(\S+?)\.?\{([^}]*)\}", text):
        for item in m.group(2).split(","):
            if " as " in item:
                found.add(item.split(" as ")[1].strip())
    return {n for n in found if n not in KEYWORDS}


def patterns(text):
    """The variables of patterns on the left of '='."""
    found = set()
    for m in re.finditer(r"(?m)^[ \t]*([^\W\d][\w'\-]*[ \t]+[^\n=]*?)[ \t]=(?:[ \t]|$)", without_comments(text)):
        if re.match(r"\s*(use|pub|abbrev|let|record|elim)\b", m.group(1)) or ":" in m.group(1):
            continue
        found |= set(re.findall(r"(?<![.\w'\-])[^\W\d][\w'\-]*", m.group(1))[1:])
    return found


def of_the_library(text):
    found = set()
    for m in re.finditer(r"use[ \t]+(\S+?)\.?\{([^}]*)\}", text):
        if m.group(1).startswith(LIBRARY):
            for item in m.group(2).split(","):
                found.add(item.split(" as ")[0].strip())
    return found


def clauses(text):
    """The parts of a file of src/ that speak of definitions, as pairs of places."""
    spans = []
    for m in re.finditer(r"\bghost[ \t]+use[^;]*;|\b(?:requires|ensures|also_owns|also_shares|decreases|ghost)\b[^{};\n]*(?::|=)?[ \t]*\{", text):
        line = text.rfind("\n", 0, m.start()) + 1
        if "//" in text[line:m.start()]:
            continue
        end = m.end()
        if text[end - 1] == "{":
            depth = 1
            while depth and end < len(text):
                depth += (text[end] == "{") - (text[end] == "}")
                end += 1
        spans.append((m.start(), end))
    return spans


def main():
    dry = "--dry" in sys.argv[1:]
    texts = {p: open(p, encoding="utf-8").read() for p in files()}
    own, library, made = set(), set(), set()
    for p, t in texts.items():
        library |= of_the_library(t)
        if p.endswith(".antt"):
            own |= declared(t) | patterns(t)
            made |= set(re.findall(r"\bgoal\.([^\W\d][\w'\-]*)", t))
        else:
            own |= set(re.findall(r"(?m)^\s*ghost[ \t]+([^\W\d]\w*)[ \t]*[:=]", t))
    names = {n: respelled(n) for n in own if wants_it(n)}
    names = {n: new for n, new in names.items() if new != n}
    left = {}
    for n in sorted(names):
        if n in library:
            left[n] = "the library has a name of this spelling"
        elif n in made:
            left[n] = "the prover makes a name of this spelling"
    for n in left:
        del names[n]
    for p, t in sorted(texts.items()):
        if p.endswith(".antt"):
            there = set(TOKEN.findall(without_comments(t)))
        else:
            there = {w for a, b in clauses(t) for w in TOKEN.findall(t[a:b])}
            there_code = set(TOKEN.findall(t))
        into = {}
        for w in there:
            into.setdefault(names.get(w, w), set()).add(w)
        for new, olds in into.items():
            if len(olds) > 1 and any(o in names for o in olds):
                print(f"falls together: {p}: {sorted(olds)} -> {new}")
        if p.endswith(".rt"):
            for new, olds in into.items():
                if new not in olds and new in there_code:
                    print(f"also in code: {p}: {sorted(olds)} -> {new}")
    for n, why in left.items():
        print(f"left: {n}: {why}")
    print(f"{len(names)} names")
    if dry:
        for n in sorted(names):
            print(f"  {n} -> {names[n]}")
        return

    def turn(t):
        return TOKEN.sub(lambda m: names.get(m.group(), m.group()), t)

    changed = 0
    for p, t in texts.items():
        if p.endswith(".antt"):
            new = turn(t)
        else:
            new, at = "", 0
            for a, b in clauses(t):
                if a < at:
                    continue
                new += t[at:a] + turn(t[a:b])
                at = b
            new += t[at:]
        if new != t:
            open(p, "w", encoding="utf-8").write(new)
            changed += 1
    print(f"{changed} files")


main()
