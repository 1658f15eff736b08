//! Closing lines: `layout_line` on both sides, on points, everything bit for bit.

use crate::Effort;
use crate::corrected;
use crate::library;
use crate::random::Random;
use crate::rust;
use std::collections::BTreeMap;

/// A glyph, a word and a span as the tables hold them.
#[derive(Clone, Copy, Debug)]
pub struct Glyph {
    pub start: u16,
    pub end: u16,
    pub advance: f32,
    pub size: Option<f32>,
}

#[derive(Clone, Copy, Debug)]
pub struct Word {
    pub blank: bool,
    pub offset: usize,
    pub len: usize,
}

#[derive(Clone, Copy, Debug)]
pub struct Span {
    pub level: u8,
    pub offset: usize,
    pub len: usize,
}

#[derive(Clone, Debug, Default)]
pub struct Tables {
    pub rtl: bool,
    pub glyphs: Vec<Glyph>,
    pub words: Vec<Word>,
    pub spans: Vec<Span>,
    pub ellipsis: Vec<Glyph>,
}

/// A mode, numbered as the library and the stored sample number it.
#[derive(Clone, Copy, Debug, PartialEq, Eq)]
pub enum Mode {
    None = 0,
    Start = 1,
    Middle = 2,
    End = 3,
}

pub const MODES: [Mode; 4] = [Mode::None, Mode::Start, Mode::Middle, Mode::End];

/// What is asked: where the line begins as (span, word, glyph), whether the Rust is told so or given no start, the mode, the width, and the measure's
/// size.
#[derive(Clone, Copy, Debug)]
pub struct Question {
    pub position: [usize; 3],
    pub started: bool,
    pub mode: Mode,
    pub width: Option<f32>,
    pub size: f32,
}

impl Question {
    /// At size 1, with a start.
    pub fn at(position: [usize; 3], mode: Mode, width: Option<f32>) -> Self {
        Question { position, started: true, mode, width, size: 1.0 }
    }
}

/// A range; the ellipsis has the span `usize::MAX`.
#[derive(Clone, Copy, Debug, PartialEq, Eq)]
pub struct LineRange {
    pub span: usize,
    pub start: [usize; 2],
    pub end: [usize; 2],
    pub level: u8,
}

#[derive(Clone, Debug, PartialEq, Eq)]
pub struct Answer {
    pub ranges: Vec<LineRange>,
    pub blanks: usize,
    pub width_bits: u32,
    pub ellipsized: bool,
    pub elided: Option<(usize, usize)>,
}

impl Tables {
    fn congruent(&self, s: usize) -> bool {
        self.rtl == (self.spans[s].level % 2 == 1)
    }

    fn glyphs_of(&self, s: usize, w: usize) -> usize {
        let span = self.spans[s];
        if w < span.len { self.words[span.offset + w].len } else { 0 }
    }

    /// Every position of the paragraph.
    pub fn positions(&self) -> Vec<[usize; 3]> {
        let mut all = Vec::new();
        for s in 0..self.spans.len() {
            for w in 0..=self.spans[s].len {
                for g in 0..=self.glyphs_of(s, w) {
                    all.push([s, w, g]);
                }
            }
        }
        if all.is_empty() {
            all.push([0, 0, 0]);
        }
        all
    }

    /// Where a walk comes into a span; (0, 0, 0) without spans.
    pub fn opening_edge(&self, s: usize) -> [usize; 3] {
        if self.spans.is_empty() || self.congruent(s) { [s, 0, 0] } else { [s, self.spans[s].len, 0] }
    }

    pub fn push_word(&mut self, blank: bool, glyphs: &[Glyph]) {
        self.words.push(Word { blank, offset: self.glyphs.len(), len: glyphs.len() });
        self.glyphs.extend_from_slice(glyphs);
    }
}

/// The listed difference that a question may show, if any.
fn listed(tables: &Tables, q: &Question, ours: &Answer, ellipsis_width: f32) -> Option<&'static str> {
    let against = !tables.spans.is_empty() && !tables.congruent(q.position[0]);
    if against && !q.started {
        return Some("no start, and a first span against the direction");
    }
    if q.mode == Mode::Start && q.width.is_some() {
        return (q.position != tables.opening_edge(q.position[0])).then_some("backward from no opening edge");
    }
    if against && q.position[2] > 0 {
        return Some("forward from inside an incongruent word");
    }
    let alone = ours.ranges.len() == 1 && ours.ellipsized;
    if q.mode == Mode::Middle && alone && q.width.is_some_and(|width| width <= ellipsis_width) {
        return Some("Middle without a half");
    }
    None
}

#[derive(Default)]
pub struct Counts {
    pub compared: usize,
    by_difference: BTreeMap<&'static str, Difference>,
}

/// A listed difference: on how many lines it shows, and the smallest of these.
struct Difference {
    lines: usize,
    size: Size,
    smallest: String,
}

/// By what one case is smaller than another: glyphs, then words, spans, the ellipsis and the width.
type Size = (usize, usize, usize, u32, Option<u32>);

fn size_of(tables: &Tables, q: &Question) -> Size {
    let ellipsis: f32 = tables.ellipsis.iter().map(|g| g.advance).sum();
    (tables.glyphs.len(), tables.words.len(), tables.spans.len(), ellipsis.to_bits(), q.width.map(f32::to_bits))
}

impl Counts {
    fn count(&mut self, name: &'static str, lines: usize, size: Size, case: impl FnOnce() -> String) {
        let difference = self.by_difference.entry(name).or_insert(Difference {
            lines: 0,
            size: (usize::MAX, 0, 0, 0, None),
            smallest: String::new(),
        });
        difference.lines += lines;
        if size < difference.size {
            difference.size = size;
            difference.smallest = case();
        }
    }

    pub fn add(&mut self, other: &Counts) {
        self.compared += other.compared;
        for (name, d) in &other.by_difference {
            self.count(name, d.lines, d.size, || d.smallest.clone());
        }
    }

    /// Prints how many lines were compared, and how many of them show each listed difference.
    pub fn report(&self, job: &str, what: &str) {
        println!("{job}: {} {what} compared bit for bit; no unlisted difference; listed ones, in each of which the answer is the corrected Rust's:", self.compared);
        for (name, d) in &self.by_difference {
            println!("  {:>9} {name}", d.lines);
        }
    }

    /// Prints the smallest line of each listed difference.
    pub fn report_smallest(&self) {
        for (name, d) in &self.by_difference {
            println!("  smallest with {name}: {}", d.smallest);
        }
    }
}

/// A case in short: direction, each span's level and words by their advances, the ellipsis, position, mode, width, and both answers.
fn shown(tables: &Tables, q: &Question, theirs: &Answer, ours: &Answer) -> String {
    let words = |s: &Span| {
        let word = |w: &Word| rows(&tables.glyphs[w.offset..w.offset + w.len], |g| g.advance.to_string());
        rows(&tables.words[s.offset..s.offset + s.len], |w| format!("[{}]", word(w)))
    };
    let spans = rows(&tables.spans, |s| format!("level {}: {};", s.level, words(s)));
    let answer = |a: &Answer| format!("{} ranges, ellipsis {}, width {}", a.ranges.len(), a.ellipsized, f32::from_bits(a.width_bits));
    let direction = if tables.rtl { "rtl" } else { "ltr" };
    let ellipsis = rows(&tables.ellipsis, |g| g.advance.to_string());
    let width = q.width.map_or("-".into(), |width| width.to_string());
    format!("{direction}, {spans} ellipsis {ellipsis}, at {:?}, {:?} {width}: Rust {}; here {}", q.position, q.mode, answer(theirs), answer(ours))
}

/// A paragraph as each side holds it.
pub struct Sides {
    rust: rust::Prepared,
    corrected: corrected::Prepared,
    library: library::Prepared,
}

pub fn prepare(tables: &Tables) -> Sides {
    Sides {
        rust: rust::prepare(tables),
        corrected: corrected::prepare(tables),
        library: library::prepare(tables),
    }
}

/// Whether both sides agree, or differ as listed and the library answers as the corrected Rust does.
pub fn agrees(tables: &Tables, sides: &mut Sides, q: &Question, counts: &mut Counts) -> bool {
    let theirs = rust::layout_line(&sides.rust, q);
    let ours = library::layout_line(&mut sides.library, q);
    counts.compared += 1;
    if ours == theirs {
        return true;
    }
    let name = listed(tables, q, &ours, rust::ellipsis_width(&sides.rust, q.size));
    is_listed(tables, q, name, [&theirs, &ours, &corrected::layout_line(&sides.corrected, q)], counts)
}

/// Counts a difference if it is listed and the library's answer is that of the corrected Rust, else prints it.
fn is_listed(tables: &Tables, q: &Question, name: Option<&'static str>, answers: [&Answer; 3], counts: &mut Counts) -> bool {
    let [theirs, ours, corrected] = answers;
    if let Some(name) = name.filter(|_| ours == corrected) {
        counts.count(name, 1, size_of(tables, q), || shown(tables, q, theirs, ours));
        return true;
    }
    println!("lines: differs on {tables:?}\n{q:?}, listed as {name:?}\n  Rust      {theirs:?}\n  here      {ours:?}\n  corrected {corrected:?}");
    false
}

/// Floats that are coarse (so that sums meet widths exactly), fine, or odd.
fn advance(random: &mut Random, kind: usize) -> f32 {
    match kind {
        0 => random.below(3) as f32,
        1 => random.below(64) as f32 / 8.0,
        2 => (random.next() % 640_000) as f32 / 10_000.0,
        _ => random.one_of(&[0.0, -0.0, 1.0, 0.5, f32::from_bits(1), 64.0, 0.1, 33.333]),
    }
}

fn glyphs(random: &mut Random, kind: usize, count: usize, byte: &mut usize) -> Vec<Glyph> {
    (0..count)
        .map(|_| {
            let start = (*byte + random.below(2)).min(65_000);
            let end = (start + random.below(4)).min(65_535);
            *byte = end;
            Glyph {
                start: start as u16,
                end: end as u16,
                advance: advance(random, kind),
                size: (random.below(6) == 0).then(|| random.below(40) as f32 / 4.0),
            }
        })
        .collect()
}

fn random_tables(random: &mut Random, most: [usize; 3]) -> Tables {
    let mut tables = Tables {
        rtl: random.below(2) == 1,
        ..Tables::default()
    };
    let kind = random.below(4);
    let mut byte = 0;
    for _ in 0..random.below(most[0] + 1) {
        let offset = tables.words.len();
        for _ in 0..random.below(most[1] + 1) {
            let count = random.below(most[2] + 1);
            let word = glyphs(random, kind, count, &mut byte);
            tables.push_word(random.below(3) == 0, &word);
        }
        let level = random.one_of(&[0, 1, 1, 2, 3, 126]);
        tables.spans.push(Span { level, offset, len: tables.words.len() - offset });
    }
    let count = random.below(3) + 1;
    tables.ellipsis = glyphs(random, kind, count, &mut 0);
    tables
}

/// A width at, around or far from a sum of some of the glyphs.
fn telling_width(random: &mut Random, tables: &Tables, size: f32) -> f32 {
    let mut width = 0.0f32;
    let some = random.below(tables.glyphs.len() + 1);
    for g in &tables.glyphs[..some] {
        width += g.size.unwrap_or(size) * g.advance;
    }
    if random.below(2) == 0 {
        for g in &tables.ellipsis {
            width += g.size.unwrap_or(size) * g.advance;
        }
    }
    match random.below(6) {
        0 => width * 2.0,
        1 => f32::from_bits(width.to_bits() + 1),
        2 => f32::from_bits(width.to_bits().saturating_sub(1)),
        3 => (random.below(200) as f32) / 4.0,
        _ => width,
    }
}

fn question(random: &mut Random, tables: &Tables, mode: Mode, position: [usize; 3]) -> Question {
    let size = random.one_of(&[1.0, 1.0, 12.5, 16.0, 0.0, 0.7]);
    Question {
        position,
        started: true,
        mode,
        width: (random.below(20) > 0).then(|| telling_width(random, tables, size)),
        size,
    }
}

fn compare_tables(random: &mut Random, tables: &Tables, positions: usize, counts: &mut Counts) -> bool {
    let mut prepared = prepare(tables);
    let all = tables.positions();
    for _ in 0..positions {
        let position = random.one_of(&all);
        for mode in MODES {
            let q = question(random, tables, mode, position);
            if !agrees(tables, &mut prepared, &q, counts) {
                return false;
            }
        }
    }
    true
}

const RANDOM_LINES: usize = 10_000_000;

pub fn compare(effort: Effort) -> bool {
    let mut counts = Counts::default();
    let mut random = Random(5);
    while counts.compared < effort.of(RANDOM_LINES) {
        let (most, positions) = match random.below(400) {
            0 => ([256, 16, 4], 2),
            1..20 => ([20, 12, 9], 4),
            _ => ([5, 5, 5], 6),
        };
        let tables = random_tables(&mut random, most);
        if tables.spans.len() > 256 || tables.words.len() > 4096 || tables.glyphs.len() > 16_384 {
            continue;
        }
        if !compare_tables(&mut random, &tables, positions, &mut counts) {
            return false;
        }
    }
    counts.report("lines", "random lines of random paragraphs");
    true
}

fn glyph_numbers(glyphs: &[Glyph]) -> String {
    let row = |g: &Glyph| {
        let size = g.size.map_or("0 0".into(), |size| format!("1 {}", size.to_bits()));
        format!("{} {} {} {size}", g.start, g.end, g.advance.to_bits())
    };
    glyphs.iter().map(row).collect::<Vec<_>>().join(" ")
}

fn rows<T>(all: &[T], row: impl Fn(&T) -> String) -> String {
    all.iter().map(row).collect::<Vec<_>>().join(" ")
}

/// Writes a sample of the Rust's answers, a case a line, in the format of the program `replay_lines`. Questions that may show a listed difference are
/// left out.
pub fn sample() -> bool {
    let mut random = Random(6);
    let mut count = 0;
    while count < 1500 {
        let tables = random_tables(&mut random, [4, 4, 4]);
        let prepared = rust::prepare(&tables);
        let positions = tables.positions();
        let position = random.one_of(&positions);
        for mode in MODES {
            let q = question(&mut random, &tables, mode, position);
            let theirs = rust::layout_line(&prepared, &q);
            let empty_middle = q.mode == Mode::Middle && theirs.ranges.is_empty();
            if empty_middle || listed(&tables, &q, &theirs, rust::ellipsis_width(&prepared, q.size)).is_some() {
                continue;
            }
            print_case(&tables, &q, &theirs);
            count += 1;
        }
    }
    true
}

fn print_case(tables: &Tables, q: &Question, answer: &Answer) {
    let [span, word, glyph] = q.position;
    let mode = q.mode as u8;
    let width = q.width.map_or("0 0".into(), |width| format!("1 {}", width.to_bits()));
    let words = rows(&tables.words, |w| format!("{} {} {}", w.blank as u8, w.offset, w.len));
    let spans = rows(&tables.spans, |s| format!("{} {} {}", s.level, s.offset, s.len));
    let ranges = rows(&answer.ranges, |r| {
        let named = if r.span == usize::MAX { "0 0".into() } else { format!("1 {}", r.span) };
        format!("{named} {} {} {} {} {}", r.start[0], r.start[1], r.end[0], r.end[1], r.level)
    });
    let elided = answer.elided.map_or("0 0 0".into(), |(start, end)| format!("1 {start} {end}"));
    println!(
        "{} {span} {word} {glyph} {mode} {width} {} ; {} ; {words} ; {spans} ; {} ; {ranges} ; {} {} {elided}",
        tables.rtl as u8,
        q.size.to_bits(),
        glyph_numbers(&tables.glyphs),
        glyph_numbers(&tables.ellipsis),
        answer.blanks,
        answer.width_bits
    );
}

/// Words of these lengths in one span, each glyph of advance 1, with an ellipsis of 1.
fn cells(level: u8, lengths: &[usize]) -> Tables {
    let mut tables = Tables::default();
    let one = |byte: usize| Glyph { start: byte as u16, end: byte as u16 + 1, advance: 1.0, size: None };
    for &len in lengths {
        let first = tables.glyphs.len();
        let word: Vec<Glyph> = (first..first + len).map(one).collect();
        tables.push_word(false, &word);
    }
    tables.spans.push(Span { level, offset: 0, len: lengths.len() });
    tables.ellipsis = vec![one(0)];
    tables
}

/// Prints what each side answers on the inputs that docs/DIFFERENCES.md gives for the listed differences.
pub fn show_differences() -> bool {
    let ask = |name: &str, tables: &Tables, q: Question| {
        let mut sides = prepare(tables);
        println!("{name}\n  Rust {:?}\n  here {:?}", rust::layout_line(&sides.rust, &q), library::layout_line(&mut sides.library, &q));
    };
    let against = cells(1, &[3, 4]);
    let beginning = Question::at([0, 2, 0], Mode::End, Some(6.0));
    ask("no start, and a first span against the direction, End 6", &against, Question { started: false, ..beginning });
    ask("the same, started at the opening edge", &against, beginning);
    ask("forward from inside an incongruent word, End 0", &against, Question::at([0, 0, 1], Mode::End, Some(0.0)));
    let along = cells(0, &[4, 3]);
    ask("backward from no opening edge, Start 3", &along, Question::at([0, 0, 3], Mode::Start, Some(3.0)));
    ask("Middle without a half, Middle 1", &along, Question::at([0, 0, 0], Mode::Middle, Some(1.0)));
    true
}
