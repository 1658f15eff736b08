// How the lifted Rust is asked. It is included behind the lifted items, once as they stand and once as they are corrected.

use crate::lines;
use std::cmp::{max, min};
use std::ops::Range;

/// A line's ranges, as `reorder` takes them.
pub struct Ranges(Vec<VlRange>);

/// Ranges that have these levels and nothing else of interest.
pub fn ranges_of(levels: &[u8]) -> Ranges {
    let range = |&level: &u8| VlRange {
        level: unicode_bidi::Level(level),
        ..VlRange::default()
    };
    Ranges(levels.iter().map(range).collect())
}

/// What `reorder` itself answers: one-element index ranges. It stops on level 126 alone.
pub fn elements_of(ranges: &Ranges) -> Vec<Range<usize>> {
    let line = ShapeLine {
        rtl: false,
        spans: Vec::new(),
        ellipsis_span: None,
    };
    line.reorder(&ranges.0)
}

/// The visual order of ranges of these levels, as indices.
pub fn reorder(levels: &[u8]) -> Vec<usize> {
    let elements = elements_of(&ranges_of(levels));
    elements.iter().map(|element| element.start).collect()
}

/// A text whose characters have these byte lengths.
pub fn text_of(lengths: &[u8]) -> String {
    lengths.iter().map(|&len| ['a', 'é', '€', '𝄞'][len as usize - 1]).collect()
}

/// A line as `adjust_levels` takes it, on a text of its lengths; a class stands for each byte of its character.
pub fn info_of<'a>(line: &crate::levels::Line, text: &'a str) -> unicode_bidi::BidiInfo<'a> {
    use unicode_bidi::BidiClass::*;
    const CLASSES: [unicode_bidi::BidiClass; 23] =
        [L, R, AL, EN, ES, ET, AN, CS, NSM, BN, B, S, WS, ON, LRE, LRO, RLE, RLO, PDF, LRI, RLI, FSI, PDI];
    let mut classes = Vec::new();
    for (&class, &len) in line.classes.iter().zip(&line.lengths) {
        classes.extend((0..len).map(|_| CLASSES[class as usize]));
    }
    unicode_bidi::BidiInfo {
        text,
        levels: line.levels.iter().map(|&level| unicode_bidi::Level(level)).collect(),
        original_classes: classes,
    }
}

/// What `adjust_levels` itself answers.
pub fn reset(info: &unicode_bidi::BidiInfo, paragraph: u8) -> Vec<unicode_bidi::Level> {
    let para = unicode_bidi::ParagraphInfo {
        level: unicode_bidi::Level(paragraph),
    };
    ShapeLine::adjust_levels(&unicode_bidi::Paragraph { info, para: &para })
}

/// The levels of a line after `adjust_levels`.
pub fn adjust_levels(line: &crate::levels::Line) -> Vec<u8> {
    let text = text_of(&line.lengths);
    reset(&info_of(line, &text), line.paragraph).iter().map(|level| level.0).collect()
}

/// A paragraph as the Rust holds it.
pub struct Prepared(ShapeLine);

pub fn prepare(tables: &lines::Tables) -> Prepared {
    let shape = |g: &lines::Glyph| ShapeGlyph {
        start: g.start as usize,
        end: g.end as usize,
        x_advance: g.advance,
        metrics_opt: g.size.map(|font_size| Metrics { font_size }),
    };
    let word = |w: &lines::Word| ShapeWord {
        blank: w.blank,
        glyphs: tables.glyphs[w.offset..w.offset + w.len].iter().map(shape).collect(),
    };
    let span = |s: &lines::Span| ShapeSpan {
        level: unicode_bidi::Level(s.level),
        words: tables.words[s.offset..s.offset + s.len].iter().map(word).collect(),
    };
    let ellipsis = ShapeWord {
        blank: false,
        glyphs: tables.ellipsis.iter().map(shape).collect(),
    };
    Prepared(ShapeLine {
        rtl: tables.rtl,
        spans: tables.spans.iter().map(span).collect(),
        ellipsis_span: Some(ShapeSpan {
            level: unicode_bidi::Level::ltr(),
            words: vec![ellipsis],
        }),
    })
}

pub fn ellipsis_width(line: &Prepared, size: f32) -> f32 {
    line.0.ellipsis_w(size)
}

/// The line itself, for timing.
pub fn visual_line(line: &Prepared, q: &lines::Question) -> impl Sized {
    lay(line, q)
}

fn lay(line: &Prepared, q: &lines::Question) -> VisualLine {
    let [span, word, glyph] = q.position;
    let start = q.started.then_some(SpanWordGlyphPos { span, word, glyph });
    let limit = EllipsizeHeightLimit::Lines(1);
    let ellipsize = match q.mode {
        lines::Mode::None => Ellipsize::None,
        lines::Mode::Start => Ellipsize::Start(limit),
        lines::Mode::Middle => Ellipsize::Middle(limit),
        lines::Mode::End => Ellipsize::End(limit),
    };
    let mut visual = VisualLine::default();
    line.0.layout_line(&mut visual, q.size, &line.0.spans, start, line.0.rtl, q.width, ellipsize);
    visual
}

/// `layout_line`, started at the position or without a start.
pub fn layout_line(line: &Prepared, q: &lines::Question) -> lines::Answer {
    answer_of(lay(line, q))
}

fn answer_of(visual: VisualLine) -> lines::Answer {
    let range = |r: &VlRange| lines::LineRange {
        span: r.span,
        start: [r.start.word, r.start.glyph],
        end: [r.end.word, r.end.glyph],
        level: r.level.0,
    };
    lines::Answer {
        ranges: visual.ranges.iter().map(range).collect(),
        blanks: visual.spaces as usize,
        width_bits: visual.w.to_bits(),
        ellipsized: visual.ellipsized,
        elided: visual.elided_byte_range,
    }
}
