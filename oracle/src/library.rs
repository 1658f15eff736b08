//! The library's static library. A slice is passed as a pointer and a length; nothing checks these declarations against its sources.

use crate::lines;

unsafe extern "C" {
    fn cudinstant_reorder(levels: *const u8, count: usize, order: *mut usize, places: usize) -> usize;
    fn cudinstant_adjust_levels(
        paragraph: u8,
        classes: *const u8,
        class_count: usize,
        lengths: *const u8,
        length_count: usize,
        levels: *mut u8,
        level_count: usize,
    ) -> usize;
    fn cudinstant_points_width(size: f32, has_own: bool, own: f32, advance: f32, width: *mut f32) -> u32;
    fn cudinstant_points_sum(a: f32, b: f32) -> f32;
    fn cudinstant_points_over(a: f32, b: f32) -> bool;
    fn cudinstant_points_difference(a: f32, b: f32) -> f32;
    fn cudinstant_points_half(a: f32) -> f32;
    fn cudinstant_points_lawful(a: f32) -> bool;
    fn cudinstant_layout_small_line(
        glyphs: *const Glyph,
        glyph_count: usize,
        words: *const Row,
        word_count: usize,
        spans: *const Row,
        span_count: usize,
        ellipsis: *const Glyph,
        ellipsis_count: usize,
        question: *const LineQuestion,
        ranges: *mut Range,
        places: usize,
        answer: *mut LineAnswer,
    ) -> usize;
    fn cudinstant_layout_line(
        glyphs: *const Glyph,
        glyph_count: usize,
        words: *const Row,
        word_count: usize,
        spans: *const Row,
        span_count: usize,
        ellipsis: *const Glyph,
        ellipsis_count: usize,
        question: *const LineQuestion,
        ranges: *mut Range,
        places: usize,
        answer: *mut LineAnswer,
    ) -> usize;
    fn cudinstant_check_often(extent: *const Extent, times: usize) -> usize;
    fn cudinstant_lay_entry(extent: *const Extent, calls: *const Calls) -> usize;
}

// The plain records that cross, field by field.
#[repr(C)]
#[derive(Clone, Copy)]
struct Glyph {
    start: u16,
    end: u16,
    advance: f32,
    has_size: bool,
    size: f32,
}

#[repr(C)]
#[derive(Clone, Copy)]
struct Row {
    kind: u8,
    offset: usize,
    len: usize,
}

#[repr(C)]
#[derive(Clone, Copy)]
struct Range {
    has_span: bool,
    span: usize,
    start: [usize; 2],
    end: [usize; 2],
    level: u8,
}

#[repr(C)]
struct LineQuestion {
    size: f32,
    span: usize,
    word: usize,
    glyph: usize,
    mode: u8,
    has_width: bool,
    width: f32,
    rtl: bool,
    times: usize,
}

#[repr(C)]
#[derive(Default)]
struct LineAnswer {
    ranges: usize,
    blanks: usize,
    laid: usize,
    width: f32,
    ellipsized: bool,
    start: usize,
    end: usize,
}

/// How large a paragraph is that the library makes up: spans, words of each, glyphs of each of these, all of one em.
#[repr(C)]
#[derive(Clone, Copy, Debug)]
pub struct Extent {
    pub spans: usize,
    pub words: usize,
    pub glyphs: usize,
}

/// What is done with an entry: lines taken, up to so many, and a closing line by a mode's number, or none by another number.
#[repr(C)]
#[derive(Clone, Copy)]
pub struct Calls {
    pub width: f32,
    pub takes: usize,
    pub mode: u8,
}

/// Makes tables up, and checks them so often.
pub fn check_often(extent: &Extent, times: usize) {
    let sound = unsafe { cudinstant_check_often(extent, times) };
    assert_eq!(sound, times, "refused {extent:?}");
}

/// Makes tables up, opens an entry on them and makes the calls: how many glyphs stand on lines.
pub fn lay_entry(extent: &Extent, calls: &Calls) -> usize {
    unsafe { cudinstant_lay_entry(extent, calls) }
}

/// 0 and the order written, or the number of the refusal.
pub fn reorder(levels: &[u8], order: &mut [usize]) -> usize {
    unsafe { cudinstant_reorder(levels.as_ptr(), levels.len(), order.as_mut_ptr(), order.len()) }
}

/// 0 and the levels reset, or the number of the refusal.
pub fn adjust_levels(paragraph: u8, classes: &[u8], lengths: &[u8], levels: &mut [u8]) -> usize {
    unsafe {
        cudinstant_adjust_levels(
            paragraph,
            classes.as_ptr(),
            classes.len(),
            lengths.as_ptr(),
            lengths.len(),
            levels.as_mut_ptr(),
            levels.len(),
        )
    }
}

/// A glyph's width in points, or nothing where the size is refused.
pub fn width(size: f32, own: Option<f32>, advance: f32) -> Option<f32> {
    let mut width = 0.0;
    let refused = unsafe { cudinstant_points_width(size, own.is_some(), own.unwrap_or(0.0), advance, &mut width) };
    (refused == 0).then_some(width)
}

pub fn sum(a: f32, b: f32) -> f32 {
    unsafe { cudinstant_points_sum(a, b) }
}

pub fn over(a: f32, b: f32) -> bool {
    unsafe { cudinstant_points_over(a, b) }
}

pub fn difference(a: f32, b: f32) -> f32 {
    unsafe { cudinstant_points_difference(a, b) }
}

pub fn half(a: f32) -> f32 {
    unsafe { cudinstant_points_half(a) }
}

pub fn lawful(a: f32) -> bool {
    unsafe { cudinstant_points_lawful(a) }
}

/// A paragraph as it crosses, with a list for a line's ranges.
pub struct Prepared {
    rtl: bool,
    glyphs: Vec<Glyph>,
    words: Vec<Row>,
    spans: Vec<Row>,
    ellipsis: Vec<Glyph>,
    ranges: Vec<Range>,
}

pub fn prepare(tables: &lines::Tables) -> Prepared {
    let glyph = |g: &lines::Glyph| Glyph {
        start: g.start,
        end: g.end,
        advance: g.advance,
        has_size: g.size.is_some(),
        size: g.size.unwrap_or(0.0),
    };
    let unused = Range {
        has_span: true,
        span: 77,
        start: [77; 2],
        end: [77; 2],
        level: 77,
    };
    Prepared {
        rtl: tables.rtl,
        glyphs: tables.glyphs.iter().map(glyph).collect(),
        words: tables.words.iter().map(|w| Row { kind: w.blank as u8, offset: w.offset, len: w.len }).collect(),
        spans: tables.spans.iter().map(|s| Row { kind: s.level, offset: s.offset, len: s.len }).collect(),
        ellipsis: tables.ellipsis.iter().map(glyph).collect(),
        ranges: vec![unused; tables.spans.len() + 2],
    }
}

/// Lays the line `times` times over; the number of the refusal is 0.
fn lay(p: &mut Prepared, q: &lines::Question, times: usize) -> (usize, LineAnswer) {
    let question = LineQuestion {
        size: q.size,
        span: q.position[0],
        word: q.position[1],
        glyph: q.position[2],
        mode: q.mode as u8,
        has_width: q.width.is_some(),
        width: q.width.unwrap_or(0.0),
        rtl: p.rtl,
        times,
    };
    let mut answer = LineAnswer::default();
    let small = p.glyphs.len() <= 128 && p.words.len() <= 64;
    let call = if small { cudinstant_layout_small_line } else { cudinstant_layout_line };
    let refused = unsafe {
        call(
            p.glyphs.as_ptr(),
            p.glyphs.len(),
            p.words.as_ptr(),
            p.words.len(),
            p.spans.as_ptr(),
            p.spans.len(),
            p.ellipsis.as_ptr(),
            p.ellipsis.len(),
            &question,
            p.ranges.as_mut_ptr(),
            p.ranges.len(),
            &mut answer,
        )
    };
    (refused, answer)
}

/// Lays a line again and again, for timing.
pub fn lay_often(p: &mut Prepared, q: &lines::Question, times: usize) {
    lay(p, q, times);
}

pub fn layout_line(prepared: &mut Prepared, q: &lines::Question) -> lines::Answer {
    let (refused, answer) = lay(prepared, q, 1);
    assert_eq!(refused, 0, "refused {q:?}");
    let range = |r: &Range| lines::LineRange {
        span: if r.has_span { r.span } else { usize::MAX },
        start: r.start,
        end: r.end,
        level: r.level,
    };
    lines::Answer {
        ranges: prepared.ranges[..answer.ranges].iter().map(range).collect(),
        blanks: answer.blanks,
        width_bits: answer.width.to_bits(),
        ellipsized: answer.ellipsized,
        elided: answer.ellipsized.then_some((answer.start, answer.end)),
    }
}
