#!/usr/bin/env python3
"""The program `strip` again, over the plain model: reads its input format and prints what it should print.

The stored output of the gate's run of `strip` is made by this: model_strip.py < crates/strip/stdin > crates/strip/stdout
"""

import struct
import sys

from model import Entry, Exact, Lawless, Paragraph, Points, f32, range_glyphs


def bits(x):
    return struct.unpack("<I", struct.pack("<f", x))[0]


def number(text):
    """A float as a decimal or as its bits in hex."""
    if text.startswith("0x"):
        return struct.unpack("<f", struct.pack("<I", int(text, 16)))[0]
    return f32(float(text))


def shortest(x):
    """The shortest decimal that reads as this 32-bit float."""
    for digits in range(1, 18):
        text = f"{x:.{digits}g}"
        if f32(float(text)) == x:
            value = f"{float(text):f}".rstrip("0").rstrip(".") if "e" in text else text
            return value
    return repr(x)


class Tables:
    def __init__(self, rtl):
        self.rtl, self.glyphs, self.words, self.spans, self.ellipsis = rtl, [], [], [], []

    def read(self, fields):
        kind, rest = fields[0], fields[1:]
        if kind in ("glyph", "ellipsis"):
            g = {"start": int(rest[0]), "end": int(rest[1]), "advance": number(rest[2]), "size": None if rest[3] == "-" else number(rest[3])}
            g["units"], g["cells"] = int(rest[4]), int(rest[5])
            (self.glyphs if kind == "glyph" else self.ellipsis).append(g)
        elif kind == "word":
            self.words.append((rest[0] == "blank", int(rest[1]), int(rest[2])))
        elif kind == "span":
            self.spans.append((int(rest[0]), int(rest[1]), int(rest[2])))

    def fault(self):
        """The first fault, as (number, row, table), or nothing."""
        for rows, limit, name in [(self.glyphs, 16384, "glyphs"), (self.words, 4096, "words"), (self.spans, 256, "spans")]:
            if len(rows) > limit:
                return (1, limit, name)
        for i, g in enumerate(self.glyphs):
            if not good(g):
                return (2, i, "glyphs")
        row = loose([(o, n, True) for _, o, n in self.words], len(self.glyphs))
        if row is not None:
            return (3, row, "words")
        row = loose([(o, n, level <= 126) for level, o, n in self.spans], len(self.words))
        if row is not None:
            return (4, row, "spans")
        if not self.ellipsis:
            return (5, 0, "ellipsis")
        if len(self.ellipsis) > 16:
            return (5, 16, "ellipsis")
        for i, g in enumerate(self.ellipsis):
            if not good(g):
                return (5, i, "ellipsis")
        return None

    def paragraph(self):
        words = [(blank, self.glyphs[o:o + n]) for blank, o, n in self.words]
        return Paragraph(self.rtl, [(level, words[o:o + n]) for level, o, n in self.spans], self.ellipsis)

    def counts(self):
        return f"opened {len(self.glyphs)} {len(self.words)} {len(self.spans)}"


def good(g):
    sized = g["size"] is None or 0 <= g["size"] <= 4096
    return g["start"] <= g["end"] and 0 <= g["advance"] <= 64 and sized and g["cells"] <= 2


def loose(rows, below):
    at = 0
    for i, (offset, length, fine) in enumerate(rows):
        if offset != at or length > below - at or not fine:
            return i
        at += length
    return None if at == below else len(rows)


def measure(words):
    """The measure, or the name of the setting that is out of range."""
    if words[0] == "points":
        size = number(words[1])
        return Points(size) if 0 <= size <= 4096 else "size"
    if words[0] == "lawless":
        return Lawless()
    spacings = [int(s) for s in words[2::2]]
    return Exact(words[0], spacings) if all(s <= 1023 for s in spacings) else "spacing"


def width_of(m, text):
    return number(text) if isinstance(m, Points) else int(text)


def show_width(m, width):
    return f"{shortest(width)} 0x{bits(width):08x}" if isinstance(m, Points) else str(width)


def seen(para, text, ranges, order):
    out, data = "", text.encode()
    for i in order:
        if ranges[i][0] is None:
            out += "…"
            continue
        glyphs = range_glyphs(para, ranges[i])
        for g in glyphs[::-1] if para.rtl else glyphs:
            try:
                out += data[g["start"]:g["end"]].decode() if g["end"] <= len(data) else ""
            except UnicodeDecodeError:
                pass
    return "seen: " + out


def show_line(m, para, text, number, line):
    ranges, blanks, _, width, elided, order = line
    out = [f"line {number}: ranges {len(ranges)}, blanks {blanks}, width {show_width(m, width)}"]
    for s, a, z, level in ranges:
        if s is None:
            out.append(f"range ellipsis level {level}")
        else:
            count = len(range_glyphs(para, (s, a, z, level)))
            out.append(f"range {s} ({a[0]},{a[1]})-({z[0]},{z[1]}) level {level} glyphs {count}")
    if elided is not None:
        out.append(f"elided {elided[0]} to {elided[1]}")
    out.append("order" + "".join(f" {i}" for i in order))
    if text is not None:
        out.append(seen(para, text, ranges, order))
    return out


def refused(fault):
    return "refused {} at {} in {}".format(*fault)


def perform(m, own, other, text, calls):
    fault = own.fault()
    if fault:
        return [refused(fault)]
    out = [own.counts()]
    lent = {"own": own.paragraph(), "other": Paragraph(False, [], [])}
    if other is not None:
        no = other.fault()
        out.append("other " + (refused(no) if no else other.counts()))
        if not no:
            lent["other"] = other.paragraph()
    para = lent["own"]
    entry = Entry(m, para)
    ranges = order = len(own.spans) + 2
    for fields in calls:
        if fields[0] == "lists":
            ranges, order = int(fields[1]), int(fields[2])
        elif fields[0] == "lend":
            para = lent[fields[1]]
        elif fields[0] == "tally":
            out.append(f"tally lines {entry.lines} laid {entry.laid} hidden {entry.hidden} left {entry.left}")
        else:
            if fields[0] == "take":
                no, line = entry.take(para, width_of(m, fields[1]), ranges, order)
            else:
                width = None if fields[2] == "-" else width_of(m, fields[2])
                no, line = entry.close(para, fields[1], width, ranges, order)
            out += [refused(no)] if no else show_line(m, para, text, entry.lines, line)
    return out


def answer(block):
    text, own, other, m, calls = None, None, None, None, []
    for row in block:
        fields = row.split(" ")
        if row.startswith("#"):
            continue
        if fields[0] == "text":
            text = row[len("text "):]
        elif fields[0] == "paragraph":
            own = current = Tables(fields[1] == "rtl")
        elif fields[0] == "other":
            other = current = Tables(fields[1] == "rtl")
        elif fields[0] == "measure":
            m = measure(fields[1:])
        elif m is None:
            current.read(fields)
        else:
            calls.append(fields)
    if isinstance(m, str):
        return [refused((12, 0, m))]
    return perform(m, own, other, text, calls)


def main():
    blocks, block = [], []
    for row in sys.stdin.read().split("\n") + [""]:
        if row:
            block.append(row)
        elif block:
            blocks.append(block)
            block = []
    print("\n\n".join("\n".join(answer(b)) for b in blocks))


if __name__ == "__main__":
    main()
