#!/usr/bin/env python3
"""Runs tables with faults through the program `strip`, and holds each answer against the plain model.

Every single fault and every pairing of two, at the first row, the last and one between; tables at their limits and one row past them; empty tables, and
empty words and spans at the ends.

Usage: compare_tables.py STRIP   (the program's path, as crates/strip/out/strip)
"""

import itertools
import subprocess
import sys

from model_strip import answer

NAN = "0x7fc00000"


def sound():
    """Tables of 6 glyphs in 3 words in 2 spans, as lists of fields."""
    glyphs = [["glyph", str(i), str(i + 1), "0.5", "-", "64", "1"] for i in range(6)]
    words = [["word", "text", "0", "2"], ["word", "blank", "2", "1"], ["word", "text", "3", "3"]]
    spans = [["span", "0", "0", "2"], ["span", "1", "2", "1"]]
    ellipsis = [["ellipsis", "0", "1", "1", "-", "64", "1"] for _ in range(3)]
    return {"glyph": glyphs, "word": words, "span": spans, "ellipsis": ellipsis}


def setting(table, row, field, value):
    def plant(t):
        if row < len(t[table]):
            t[table][row][field] = value

    return plant


def dropping(table):
    return lambda t: t[table].pop()


def doubling(table):
    return lambda t: t[table].append(list(t[table][-1]))


def filling(table, row, count):
    """A table of `count` rows."""
    return lambda t: t.__setitem__(table, [list(row) for _ in range(count)])


def faults():
    out = []
    for table, rows in [("glyph", [0, 3, 5]), ("ellipsis", [0, 1, 2])]:
        for row in rows:
            for field, value in [(1, "900"), (3, NAN), (3, "64.5"), (3, "-1"), (3, "-0.0"), (3, "64"), (4, "4097"), (4, NAN), (4, "4096"), (6, "3"), (6, "2")]:
                out.append(setting(table, row, field, value))
    for table, rows in [("word", [0, 1, 2]), ("span", [0, 1])]:
        for row in rows:
            for field, value in [(2, "7"), (3, "0"), (3, "99"), (3, "18446744073709551615"), (2, "18446744073709551615")]:
                out.append(setting(table, row, field, value))
    for row in [0, 1]:
        for level in ["126", "127", "255"]:
            out.append(setting("span", row, 1, level))
    for table in ["glyph", "word", "span", "ellipsis"]:
        out += [dropping(table), doubling(table), filling(table, None, 0)]
    out.append(filling("ellipsis", ["ellipsis", "0", "0", "1", "-", "1", "1"], 16))
    out.append(filling("ellipsis", ["ellipsis", "0", "0", "1", "-", "1", "1"], 17))
    out.append(filling("span", ["span", "0", "0", "0"], 257))
    return out


def rows_of(t):
    rows = ["paragraph ltr"] + [" ".join(row) for table in ["glyph", "word", "span", "ellipsis"] for row in t[table]]
    return rows + ["measure cells", "tally"]


def limits():
    """Tables at their limits, and one row past them."""
    for count in [16384, 16385]:
        t = sound()
        t["glyph"] = [["glyph", "0", "0", "0", "-", "0", "0"] for _ in range(count)]
        t["word"], t["span"] = [["word", "text", "0", str(count)]], [["span", "0", "0", "1"]]
        yield t
    for count in [4096, 4097]:
        t = sound()
        t["word"] = [["word", "text", "0", "0"] for _ in range(count - 1)] + [["word", "text", "0", "6"]]
        t["span"] = [["span", "0", "0", str(count)]]
        yield t
    for count in [256, 257]:
        t = sound()
        t["span"] = [["span", "0", "0", "3"]] + [["span", "1", "3", "0"] for _ in range(count - 1)]
        yield t
    t = sound()
    t["word"] = [["word", "text", "0", "0"]] + t["word"] + [["word", "text", "6", "0"]]
    t["span"] = [["span", "1", "0", "0"], ["span", "0", "0", "5"], ["span", "1", "5", "0"]]
    yield t


def main():
    cases = list(limits())
    planted = faults()
    for pair in itertools.chain([()], ((f,) for f in planted), itertools.permutations(planted, 2)):
        t = sound()
        for plant in pair:
            if all(len(t[k]) for k in t):
                plant(t)
        cases.append(t)
    blocks = [rows_of(t) for t in cases]
    text = "\n\n".join("\n".join(b) for b in blocks) + "\n"
    run = subprocess.run([sys.argv[1]], input=text.encode(), capture_output=True)
    if run.returncode != 0:
        sys.exit(f"strip ended with {run.returncode}: {run.stderr.decode()}")
    got = run.stdout.decode().rstrip("\n").split("\n\n")
    causes = {}
    for block, said in zip(blocks, got, strict=True):
        expected = "\n".join(answer(block))
        if said != expected:
            print("differs on", *block, "", "expected", expected, "", "got", said, sep="\n")
            sys.exit(1)
        cause = said.split(" at ")[0].split("\n")[0] if said.startswith("refused") else "granted"
        causes[cause] = causes.get(cause, 0) + 1
    print(f"tables: {len(blocks)} tables, every answer as the model's:", ", ".join(f"{k} {v}" for k, v in sorted(causes.items())))


if __name__ == "__main__":
    main()
