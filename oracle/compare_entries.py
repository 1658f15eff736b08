#!/usr/bin/env python3
"""Runs random scripts of calls on random paragraphs through the program `strip`, and holds every answer against the plain model.

Usage: compare_entries.py STRIP [SCRIPTS]   (STRIP is the program's path, as crates/strip/out/strip; 200,000 scripts where no number is given)
"""

import random
import subprocess
import sys
from collections import Counter

from model import Exact, Lawless, Paragraph, Points, f32, row_width
from model_strip import answer, bits

BATCH = 500
MEASURES = ["points", "units", "cells", "tracking", "lawless"]
LETTERS = "ab cאב ד€𝄞é"


def random_glyph(rng, byte):
    start = byte + rng.randrange(2)
    end = start + rng.randrange(3)
    advance = f32(rng.choice([0, 0.5, 1, 1, 2, rng.random() * 4]))
    size = None if rng.random() < 0.85 else f32(rng.choice([0, 1, 2.5]))
    return {"start": start, "end": end, "advance": advance, "size": size, "units": rng.choice([0, 1, 32, 64, 64, 90]), "cells": rng.choice([0, 1, 1, 1, 2])}


def random_paragraph(rng):
    """A small paragraph, now and then a larger one."""
    larger = rng.random() < 0.02
    byte, spans = 0, []
    for _ in range(rng.choice([5, 8, 12] if larger else [0, 1, 1, 2, 3, 4])):
        words = []
        for _ in range(rng.choice([0, 1, 3, 5] if larger else [0, 1, 2, 2, 3])):
            glyphs = []
            for _ in range(rng.choice([0, 1, 1, 2, 3, 4])):
                glyphs.append(random_glyph(rng, byte))
                byte = glyphs[-1]["end"]
            words.append((rng.random() < 0.3, glyphs))
        spans.append((rng.choice([0, 0, 1, 1, 2, 3]), words))
    ellipsis = [random_glyph(rng, 0) for _ in range(rng.choice([1, 1, 2]))]
    return Paragraph(rng.random() < 0.5, spans, ellipsis)


def another_paragraph(rng, para):
    """A stranger; or one of the same shape, which is none, in its glyphs, levels or direction unlike the first."""
    if rng.random() < 0.5:
        return random_paragraph(rng)
    spans = [(rng.choice([level, level + 2]), [(not blank, [random_glyph(rng, 0) for _ in row]) for blank, row in words]) for level, words in para.spans]
    return Paragraph(para.rtl if rng.random() < 0.7 else not para.rtl, spans, para.ellipsis)


def random_measure(rng, kind):
    """The measure, and its name in text."""
    if kind == "points":
        size = f32(rng.choice([1, 1, 12.5, 0.7]))
        return Points(size), f"points 0x{bits(size):08x}"
    if kind == "lawless":
        return Lawless(), "lawless"
    base = kind if kind != "tracking" else rng.choice(["units", "cells"])
    spacings = [rng.choice([0, 1, 5, 64, 1023]) for _ in range(rng.choice([1, 1, 2, 3, 8]) if kind == "tracking" else 0)]
    return Exact(base, spacings), " ".join([base] + [f"tracking {s}" for s in spacings])


def random_width(rng, m, para):
    """A sum of some of the glyphs, where widths tell most; now and then any width, or an unlawful one."""
    glyphs = [g for _, words in para.spans for _, row in words for g in row]
    some = rng.sample(glyphs, rng.randrange(len(glyphs) + 1)) if glyphs else []
    width = row_width(m, some)
    if rng.random() < 0.3:
        width = m.sum(width, row_width(m, para.ellipsis))
    if isinstance(m, Lawless):
        # no sum tells more than another number
        return rng.choice([width, rng.randrange(300), rng.randrange(2**32), 2**32 - 1])
    if rng.random() < 0.03:
        return rng.choice([2**31, 2**32 - 1]) if isinstance(m, Exact) else rng.choice([f32(-1.0), float("inf"), float("nan")])
    return width


def width_text(m, width):
    return f"0x{bits(width):08x}" if isinstance(m, Points) else str(width)


def glyph_text(g):
    size = "-" if g["size"] is None else f"0x{bits(g['size']):08x}"
    return f"{g['start']} {g['end']} 0x{bits(g['advance']):08x} {size} {g['units']} {g['cells']}"


def paragraph_text(word, para):
    """The rows of a paragraph's tables, behind its first word, `paragraph` or `other`."""
    glyphs, words, spans = [], [], []
    for level, row in para.spans:
        spans.append(f"span {level} {len(words)} {len(row)}")
        for blank, own in row:
            words.append(f"word {'blank' if blank else 'text'} {len(glyphs)} {len(own)}")
            glyphs += ["glyph " + glyph_text(g) for g in own]
    ellipsis = ["ellipsis " + glyph_text(g) for g in para.ellipsis]
    return [f"{word} {'rtl' if para.rtl else 'ltr'}"] + glyphs + words + spans + ellipsis


def random_call(rng, m, para):
    call, spans = rng.random(), len(para.spans)
    if call < 0.05:
        return f"lists {spans + rng.choice([0, 1, 2, 3])} {spans + rng.choice([1, 2, 3])}"
    if call < 0.1:
        return "lend " + rng.choice(["own", "own", "other"])
    if call < 0.2:
        return "tally"
    if call < 0.7:
        return f"take {width_text(m, random_width(rng, m, para))}"
    width = "-" if rng.random() < 0.1 else width_text(m, random_width(rng, m, para))
    return f"close {rng.choice(['none', 'start', 'middle', 'end'])} {width}"


def random_script(rng, kind):
    """A script as lines of input."""
    para = random_paragraph(rng)
    m, name = random_measure(rng, kind)
    text = ["text " + "".join(rng.choice(LETTERS) for _ in range(rng.randrange(1, 30)))] if rng.random() < 0.3 else []
    other = paragraph_text("other", another_paragraph(rng, para)) if rng.random() < 0.2 else []
    calls = []
    for _ in range(rng.randrange(1, 10)):
        calls.append(random_call(rng, m, para))
        # after a close most calls are refused: a few scripts go on
        if calls[-1].startswith("close") and rng.random() < 0.7:
            break
    return text + paragraph_text("paragraph", para) + other + ["measure " + name] + calls


def without_decimals(row):
    """The first row of a line, with a width in points by its bits alone: a decimal of a float has many forms."""
    if row.startswith("line ") and " 0x" in row:
        head, tail = row.rsplit("width ", 1)
        return head + "width " + tail.split(" ")[1]
    return row


def tally(counts, lines, answers):
    """Counts calls, lines, refusals by number, and lines with the ellipsis by mode."""
    calls = [row.split(" ") for row in lines if row.split(" ")[0] in ("take", "close", "tally")]
    counts["calls"].update(call[0] for call in calls)
    laying = iter(call for call in calls if call[0] != "tally")
    call = None
    for row in answers:
        if row.startswith(("line ", "refused ")):
            call = next(laying)
            counts["refusals"].update([int(row.split(" ")[1])] if row.startswith("refused ") else [])
            counts["lines"].update([call[0] if call[0] == "take" else "close " + call[1]] if row.startswith("line ") else [])
        counts["ellipses"].update([call[1]] if row.startswith("range ellipsis") else [])


def show(counter):
    return ", ".join(f"{name} {counter[name]}" for name in sorted(counter))


def main():
    strip = sys.argv[1]
    total = int(sys.argv[2]) if len(sys.argv) > 2 else 200_000
    rng = random.Random(8)
    counts = {name: Counter() for name in ["measures", "calls", "lines", "refusals", "ellipses"]}
    done = 0
    while done < total:
        kinds = [MEASURES[i % len(MEASURES)] for i in range(done, min(done + BATCH, total))]
        scripts = [random_script(rng, kind) for kind in kinds]
        text = "\n\n".join("\n".join(lines) for lines in scripts) + "\n"
        run = subprocess.run([strip], input=text.encode(), capture_output=True)
        if run.returncode != 0:
            sys.exit(f"strip ended with {run.returncode}: {run.stderr.decode()}")
        blocks = run.stdout.decode().rstrip("\n").split("\n\n")
        for lines, block in zip(scripts, blocks, strict=True):
            got = [without_decimals(row) for row in block.split("\n")]
            expected = [without_decimals(row) for row in answer(lines)]
            if got != expected:
                print("differs on", *lines, "", "expected", *expected, "", "got", *got, sep="\n")
                sys.exit(1)
            tally(counts, lines, expected)
        counts["measures"].update(kinds)
        done += len(scripts)
    print(f"entries: {done} scripts, {sum(counts['calls'].values())} calls; every answer is the model's")
    print(f"  scripts by measure: {show(counts['measures'])}")
    print(f"  calls: {show(counts['calls'])}")
    print(f"  lines: {show(counts['lines'])}")
    print(f"  refusals by number: {show(counts['refusals'])}")
    print(f"  lines with the ellipsis by mode: {show(counts['ellipses'])}")


if __name__ == "__main__":
    main()
