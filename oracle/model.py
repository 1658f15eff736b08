"""A plain model of walks, closing lines, visual order and entries, written from docs/RULES.md and from nothing else.

It shares no code with the library or with the Rust. It favours clearness over speed: lists of words are built for each walk.
"""

import struct


def f32(x):
    """x rounded once to a 32-bit float. Sums and products of two such floats are exact enough in Python's floats for that."""
    try:
        return struct.unpack("<f", struct.pack("<f", x))[0]
    except OverflowError:
        return float("inf") if x > 0 else float("-inf")


class Points:
    nil = 0.0

    def __init__(self, size):
        self.size = f32(size)

    def width(self, g):
        return f32((self.size if g["size"] is None else g["size"]) * g["advance"])

    def sum(self, a, b):
        return f32(a + b)

    def over(self, a, b):
        return a > b

    def difference(self, a, b):
        return max(f32(a - b), 0.0)

    def half(self, a):
        return f32(a / 2)

    def lawful(self, a):
        return a >= 0 and a != float("inf")


class Exact:
    nil = 0

    def __init__(self, field, spacings=()):
        self.field = field
        self.spacings = spacings

    def width(self, g):
        n = g[self.field]
        for spacing in self.spacings:
            n = 0 if n == 0 else min(n + spacing, 131071)
        return n

    def sum(self, a, b):
        return (a + b) % 2**32

    def over(self, a, b):
        return a > b

    def difference(self, a, b):
        return max(a - b, 0)

    def half(self, a):
        return a // 2

    def lawful(self, a):
        return a < 2**31


class Lawless:
    """A measure that keeps no law: no sum, comparison, difference or half has to do with another. Only the order of the questions tells the answer."""

    nil = 7

    def width(self, g):
        return (31 * g["units"] + 17 * g["cells"] + 5) % 64

    def sum(self, a, b):
        return (3 * a + b + 1) % 256

    def over(self, a, b):
        return (a + 2 * b) % 3 == 0

    def difference(self, a, b):
        return (a + 5 * b) % 200

    def half(self, a):
        return 255 - a % 256

    def lawful(self, a):
        return a % 4 != 1


class Paragraph:
    """spans is a list of (level, words), a word is (blank, glyphs); ellipsis is a list of glyphs."""

    def __init__(self, rtl, spans, ellipsis):
        self.rtl, self.spans, self.ellipsis = rtl, spans, ellipsis

    def congruent(self, s):
        return self.spans[s][0] % 2 == (1 if self.rtl else 0)

    def begin(self):
        if not self.spans:
            return (0, 0, 0)
        return (0, 0, 0) if self.congruent(0) else (0, len(self.spans[0][1]), 0)

    def closing_edge(self, s):
        return (s, len(self.spans[s][1]), 0) if self.congruent(s) else (s, 0, 0)

    def exists(self, p):
        s, w, g = p
        if not self.spans:
            return p == (0, 0, 0)
        if s >= len(self.spans) or w > len(self.spans[s][1]):
            return False
        return g <= (len(self.spans[s][1][w][1]) if w < len(self.spans[s][1]) else 0)

    def reading(self):
        """The glyphs in reading order, as (span, word, glyph)."""
        out = []
        for s, (_, words) in enumerate(self.spans):
            part = [(s, w, g) for w, (_, glyphs) in enumerate(words) for g in range(len(glyphs))]
            out += part if self.congruent(s) else part[::-1]
        return out

    def ahead_words(self, p):
        """What is ahead of a position: for each span from its own on, the span and its words in table order as (word, low, high)."""
        out = []
        for s in range(p[0], len(self.spans)):
            words = self.spans[s][1]
            parts = [(w, 0, len(glyphs)) for w, (_, glyphs) in enumerate(words)]
            if s == p[0]:
                if self.congruent(s):
                    parts = [(w, p[2] if w == p[1] else lo, hi) for w, lo, hi in parts if w >= p[1]]
                else:
                    parts = [(w, lo, p[2] if w == p[1] else hi) for w, lo, hi in parts if w < p[1] or (w == p[1] and p[2] > 0)]
            out.append((s, parts))
        return out

    def ahead_count(self, p):
        return sum(hi - lo for _, parts in self.ahead_words(p) for _, lo, hi in parts)

    def before(self, rank):
        """The position just before the glyph with this rank in reading order."""
        order = self.reading()
        if rank >= len(order):
            return self.closing_edge(len(self.spans) - 1) if self.spans else (0, 0, 0)
        s, w, g = order[rank]
        if self.congruent(s):
            return (s, w, g)
        return (s, w + 1, 0) if g + 1 == len(self.spans[s][1][w][1]) else (s, w, g + 1)


def row_width(m, glyphs):
    width = m.nil
    for g in glyphs:
        width = m.sum(width, m.width(g))
    return width


def walk(m, para, p, forward, rule):
    """rule: None, ("closing", W, e) or ("taking", W). Answers ranges in reading order, blanks, glyphs laid, width, flagged."""
    ahead = para.ahead_words(p)
    part_width = lambda s, w, lo, hi: row_width(m, para.spans[s][1][w][1][lo:hi])
    steps = ahead if forward else ahead[::-1]
    ranges, blanks, laid, total, flagged = [], 0, 0, m.nil, False
    for i, (s, parts) in enumerate(steps):
        congruent = para.congruent(s)
        up = congruent == forward
        count = len(para.spans[s][1])
        low_end = (p[1], p[2]) if s == p[0] and congruent else (0, 0)
        high_end = (p[1], p[2]) if s == p[0] and not congruent else (count, 0)
        run = m.nil
        todo = list(parts) if up else list(parts)[::-1]
        cut = None
        for j, (w, lo, hi) in enumerate(todo):
            x = part_width(s, w, lo, hi)
            before = m.sum(total, run)
            if rule is None:
                over = False
            elif rule[0] == "taking":
                over = hi > lo and m.over(m.sum(before, x), rule[1])
            else:
                rest = m.nil
                left_here = sorted(todo[j + 1:])
                for w2, lo2, hi2 in left_here:
                    rest = m.sum(rest, part_width(s, w2, lo2, hi2))
                for s2, parts2 in sorted(steps[i + 1:]):
                    for w2, lo2, hi2 in parts2:
                        rest = m.sum(rest, part_width(s2, w2, lo2, hi2))
                over = m.over(m.sum(before, x), rule[1]) or (m.over(rest, rule[2]) and m.over(m.sum(m.sum(before, x), rule[2]), rule[1]))
            if over:
                flagged = True
                glyphs = para.spans[s][1][w][1]
                order = list(range(lo, hi)) if up else list(range(lo, hi))[::-1]
                limit = rule[1] if rule[0] == "taking" else m.difference(rule[1], rule[2])
                g_sum, got = m.nil, 0
                if not (rule[0] == "taking" and laid > 0):
                    for n, g in enumerate(order):
                        forced = rule[0] == "taking" and n == 0
                        if not forced and m.over(m.sum(m.sum(before, g_sum), m.width(glyphs[g])), limit):
                            break
                        g_sum = m.sum(g_sum, m.width(glyphs[g]))
                        got += 1
                cut = (w, lo + got) if up else (w, hi - got)
                laid += got
                run = m.sum(run, g_sum)
                break
            run = m.sum(run, x)
            laid += hi - lo
            blanks += para.spans[s][1][w][0]
        if cut is None:
            a, b = low_end, high_end
        else:
            a, b = (low_end, cut) if up else (cut, high_end)
        if a != b:
            ranges.append((s, a, b, para.spans[s][0]))
        total = m.sum(total, run)
        if flagged:
            break
    return (ranges if forward else ranges[::-1]), blanks, laid, total, flagged


def level_between(para, before, after):
    own = 1 if para.rtl else 0
    if before and after:
        return before[3] if before[3] == after[3] else own
    one = before or after
    return one[3] if one else own


def ellipsis(level):
    return (None, (0, 0), (1, 0), level)


def closing_line(m, para, p, mode, width):
    """Answers ranges, blanks, laid, width, whether the ellipsis stands."""
    e = row_width(m, para.ellipsis)
    if mode == "none" or width is None:
        r, b, n, w, _ = walk(m, para, p, True, None)
        return r, b, n, w, False
    if mode == "end":
        r, b, n, w, flagged = walk(m, para, p, True, ("closing", width, e))
        if flagged:
            return r + [ellipsis(level_between(para, r[-1] if r else None, None))], b, n, m.sum(w, e), True
        return r, b, n, w, False
    if mode == "start":
        r, b, n, w, flagged = walk(m, para, p, False, ("closing", width, e))
        if flagged:
            return [ellipsis(level_between(para, None, r[0] if r else None))] + r, b, n, m.sum(w, e), True
        return r, b, n, w, False
    r, b, n, w, flagged = walk(m, para, p, True, ("closing", width, e))
    if not flagged and not m.over(w, width):
        return r, b, n, w, False
    r, b, n, w, flagged = walk(m, para, p, True, ("closing", m.half(width), m.nil))
    if not flagged:
        return r, b, n, w, False
    if not r:
        return [ellipsis(level_between(para, None, None))], 0, 0, e, True
    s, a, z, _ = r[-1]
    at = z if para.congruent(s) else a
    r2, b2, n2, w2, _ = walk(m, para, (s, at[0], at[1]), False, ("closing", m.difference(m.difference(width, w), e), m.nil))
    level = level_between(para, r[-1], r2[0] if r2 else None)
    return r + [ellipsis(level)] + r2, b + b2, n + n2, m.sum(m.sum(w, w2), e), True


def range_glyphs(para, r):
    """The glyphs of a range, in table order."""
    s, a, z, _ = r
    if s is None:
        return []
    return [g for w, (_, glyphs) in enumerate(para.spans[s][1]) for i, g in enumerate(glyphs) if a <= (w, i) < z]


def elided(para, ranges):
    at = [i for i, r in enumerate(ranges) if r[0] is None][0]
    everything = [g for _, words in para.spans for _, glyphs in words for g in glyphs]
    start, end = 0, max([g["end"] for g in everything], default=0)
    for r in reversed(ranges[:at]):
        if range_glyphs(para, r):
            start = max(g["end"] for g in range_glyphs(para, r))
            break
    for r in ranges[at + 1:]:
        if range_glyphs(para, r):
            end = min(g["start"] for g in range_glyphs(para, r))
            break
    return start, end


def visual_order(levels):
    """By the law of pairs: i is seen before a later j exactly if the lowest level from i to j is even."""
    order = []
    for j in range(len(levels)):
        # j goes before every earlier element that it is seen before; those stand together at the end of the order so far
        before = [i for i in order if min(levels[i:j + 1]) % 2 == 1]
        place = min((order.index(i) for i in before), default=len(order))
        order.insert(place, j)
    return order


class Entry:
    def __init__(self, m, para):
        self.m, self.position = m, para.begin()
        self.lines = self.laid = self.hidden = 0
        self.left = para.ahead_count(self.position)
        self.open = True

    def refusal(self, para, width, ranges_len, order_len):
        if not self.open:
            return (6, 0, "entry")
        if not para.exists(self.position) or para.ahead_count(self.position) != self.left:
            return (7, 0, "paragraph")
        if width is not None and not self.m.lawful(width):
            return (8, 0, "width")
        if ranges_len < len(para.spans) + 2:
            return (9, ranges_len, "ranges")
        if order_len < len(para.spans) + 2:
            return (9, order_len, "order")
        return None

    def take(self, para, width, ranges_len, order_len):
        no = self.refusal(para, width, ranges_len, order_len)
        if no is None and self.left == 0:
            no = (10, 0, "entry")
        if no:
            return no, None
        ranges, blanks, n, w, _ = walk(self.m, para, self.position, True, ("taking", width))
        self.lines += 1
        self.laid += n
        self.left -= n
        self.position = para.before(len(para.reading()) - self.left)
        return None, (ranges, blanks, n, w, None, visual_order([r[3] for r in ranges]))

    def close(self, para, mode, width, ranges_len, order_len):
        no = self.refusal(para, width, ranges_len, order_len)
        if no:
            return no, None
        ranges, blanks, n, w, stands = closing_line(self.m, para, self.position, mode, width)
        self.lines += 1
        self.laid += n
        self.hidden = self.left - n
        self.left = 0
        self.open = False
        return None, (ranges, blanks, n, w, elided(para, ranges) if stands else None, visual_order([r[3] for r in ranges]))
