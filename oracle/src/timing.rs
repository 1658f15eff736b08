//! The time that each operation takes, beside the Rust's on the same inputs in the same process where there is one, and how it grows. Prints tables for docs.

use crate::levels;
use crate::library::{self, Calls, Extent};
use crate::lines;
use crate::rust;
use std::hint::black_box;

const SIZES: [usize; 4] = [40, 512, 4096, 16_384];
const ROUNDS: usize = 25;
// how long a round should take at least, in nanoseconds
const ROUND: f64 = 1_000_000.0;

#[repr(C)]
#[derive(Default)]
struct Timespec {
    seconds: i64,
    nanoseconds: i64,
}

unsafe extern "C" {
    fn clock_gettime(clock: i32, time: *mut Timespec) -> i32;
}

/// The processor time of this process so far, in nanoseconds: what other processes do does not count.
fn processor_time() -> f64 {
    const CLOCK_PROCESS_CPUTIME_ID: i32 = 2;
    let mut time = Timespec::default();
    let failed = unsafe { clock_gettime(CLOCK_PROCESS_CPUTIME_ID, &mut time) };
    assert_eq!(failed, 0, "no clock");
    time.seconds as f64 * 1e9 + time.nanoseconds as f64
}

/// A job that does its work so often as it is told, and the least times that it took for none and for many, in nanoseconds.
struct Timed<'a> {
    job: Box<dyn FnMut(usize) + 'a>,
    times: usize,
    none: f64,
    many: f64,
}

impl<'a> Timed<'a> {
    fn new(job: impl FnMut(usize) + 'a) -> Self {
        let mut timed = Timed { job: Box::new(job), times: 1, none: f64::INFINITY, many: f64::INFINITY };
        (0..3).for_each(|_| timed.round());
        while timed.many - timed.none < ROUND && timed.times < 100_000 {
            timed.times *= 2;
            timed.many = f64::INFINITY;
            (0..3).for_each(|_| timed.round());
        }
        timed
    }

    fn clock(&mut self, times: usize) -> f64 {
        let start = processor_time();
        (self.job)(times);
        processor_time() - start
    }

    fn round(&mut self) {
        self.none = self.none.min(self.clock(0));
        self.many = self.many.min(self.clock(self.times));
    }

    /// The time of the work once, without what the job does before and behind it.
    fn once(&self) -> f64 {
        (self.many - self.none) / self.times as f64
    }
}

/// The least times of two jobs over several rounds, in turn, so that what else the machine does meets both alike.
fn least_of_two<'a>(one: impl FnMut(usize) + 'a, other: impl FnMut(usize) + 'a) -> (f64, f64) {
    let (mut one, mut other) = (Timed::new(one), Timed::new(other));
    for _ in 0..ROUNDS {
        one.round();
        other.round();
    }
    (one.once(), other.once())
}

/// A job that does its work once, as one that does it so often as it is told.
fn again(mut job: impl FnMut()) -> impl FnMut(usize) {
    move |times| (0..times).for_each(|_| job())
}

fn shown(ns: f64) -> String {
    match ns {
        ns if ns < 1_000.0 => format!("{ns:.0} ns"),
        ns if ns < 100_000.0 => format!("{:.1} µs", ns / 1_000.0),
        ns if ns < 1_000_000.0 => format!("{:.0} µs", ns / 1_000.0),
        ns => format!("{:.1} ms", ns / 1_000_000.0),
    }
}

/// The head of a table: one column for each size.
fn head(what: &str, sizes: &[usize], growth: &str) {
    let grouped = |size: usize| if size < 1000 { size.to_string() } else { format!("{},{:03}", size / 1000, size % 1000) };
    let cells: Vec<String> = sizes.iter().map(|&size| format!(" {} ", grouped(size))).collect();
    println!("\n| {what} |{}| {growth} |", cells.join("|"));
    println!("|---|{}---|", "---|".repeat(sizes.len()));
}

/// How much longer one element takes at the largest size than at the smallest.
fn growth(sizes: &[usize], times: &[f64]) -> f64 {
    let last = sizes.len() - 1;
    times[last] / sizes[last] as f64 / (times[0] / sizes[0] as f64)
}

/// A row of ratios, with the library's time: below 1 the library is ahead.
fn ratio_row(name: &str, sizes: &[usize], rust: &[f64], ours: &[f64]) {
    let cells: Vec<String> = rust.iter().zip(ours).map(|(rust, ours)| format!(" {:.2} ({}) ", ours / rust, shown(*ours))).collect();
    println!("| {name} |{}| {:.2}, Rust {:.2} |", cells.join("|"), growth(sizes, ours), growth(sizes, rust));
}

/// A row of the library's times alone.
fn time_row(name: &str, sizes: &[usize], times: &[f64]) {
    let cells: Vec<String> = times.iter().map(|ns| format!(" {} ", shown(*ns))).collect();
    println!("| {name} |{}| {:.2} |", cells.join("|"), growth(sizes, times));
}

/// Times both sides at each size and prints the row.
fn compare_row(name: &str, sizes: &[usize], mut both: impl FnMut(usize) -> (f64, f64)) {
    let (rust, ours): (Vec<f64>, Vec<f64>) = sizes.iter().map(|&size| both(size)).unzip();
    ratio_row(name, sizes, &rust, &ours);
}

fn orders() {
    head("visual order, by elements", &SIZES, "an element, 16,384 to 40");
    let kinds: [(&str, fn(usize, usize) -> u8); 4] = [
        ("alternating 0 and 1", |i, _| (i % 2) as u8),
        ("nested 0 to 126", |i, count| i.min(count - 1 - i).min(126) as u8),
        ("0 to 126 again and again", |i, _| (i % 127) as u8),
        ("all 0", |_, _| 0),
    ];
    for (name, level) in kinds {
        compare_row(name, &SIZES, |count| {
            let levels: Vec<u8> = (0..count).map(|i| level(i, count)).collect();
            let ranges = rust::ranges_of(&levels);
            let mut places = vec![0; count];
            least_of_two(
                again(|| {
                    black_box(rust::elements_of(black_box(&ranges)));
                }),
                again(|| {
                    black_box(library::reorder(black_box(&levels), &mut places));
                }),
            )
        });
    }
}

fn resets() {
    head("level resets, by characters", &SIZES, "a character, 16,384 to 40");
    // by code: L 0, S 11, WS 12
    let kinds: [(&str, fn(usize) -> u8); 4] = [
        ("letters", |_| 0),
        ("white space", |_| 12),
        ("words and white space", |i| if i % 6 == 5 { 12 } else { 0 }),
        ("white space and separators", |i| if i % 4 == 3 { 11 } else { 12 }),
    ];
    for (name, class) in kinds {
        compare_row(name, &SIZES, |count| {
            let line = levels::Line {
                paragraph: 0,
                classes: (0..count).map(class).collect(),
                lengths: vec![1; count],
                levels: vec![1; count],
            };
            let text = rust::text_of(&line.lengths);
            let info = rust::info_of(&line, &text);
            let mut after = line.levels.clone();
            least_of_two(
                again(|| {
                    black_box(rust::reset(black_box(&info), line.paragraph));
                }),
                again(|| {
                    black_box(library::adjust_levels(line.paragraph, black_box(&line.classes), &line.lengths, &mut after));
                }),
            )
        });
    }
}

/// The Rust's own operations behind a call, as the library's are.
mod called {
    #[inline(never)]
    pub extern "C" fn width(size: f32, has_own: bool, own: f32, advance: f32) -> f32 {
        if has_own { own * advance } else { size * advance }
    }

    #[inline(never)]
    pub extern "C" fn sum(a: f32, b: f32) -> f32 {
        a + b
    }
}

fn points() {
    head("points, by calls (each side behind a call)", &SIZES, "a call, 16,384 to 40");
    let advances = |count: usize| -> Vec<f32> { (0..count).map(|i| (i % 64) as f32).collect() };
    compare_row("width", &SIZES, |count| {
        let advances = advances(count);
        least_of_two(
            again(|| {
                for &advance in &advances {
                    black_box(called::width(12.5, false, 0.0, advance));
                }
            }),
            again(|| {
                for &advance in &advances {
                    black_box(library::width(12.5, None, advance));
                }
            }),
        )
    });
    compare_row("sum", &SIZES, |count| {
        let widths = advances(count);
        least_of_two(
            again(|| {
                black_box(widths.iter().fold(0.0, |a, &b| called::sum(a, b)));
            }),
            again(|| {
                black_box(widths.iter().fold(0.0, |a, &b| library::sum(a, b)));
            }),
        )
    });
}

/// A paragraph of `spans` spans, of `words` words each, of `glyphs` glyphs each; levels alternate 0 and 1.
fn paragraph(extent: Extent, advance: f32, ellipsis: f32) -> lines::Tables {
    let mut tables = lines::Tables::default();
    let glyph = |byte: usize, advance: f32| lines::Glyph {
        start: (byte % 65_000) as u16,
        end: (byte % 65_000) as u16 + 1,
        advance,
        size: None,
    };
    for s in 0..extent.spans {
        let offset = tables.words.len();
        for w in 0..extent.words {
            let first = tables.glyphs.len();
            let word: Vec<lines::Glyph> = (first..first + extent.glyphs).map(|byte| glyph(byte, advance)).collect();
            tables.push_word(w % 2 == 1, &word);
        }
        tables.spans.push(lines::Span { level: (s % 2) as u8, offset, len: extent.words });
    }
    tables.ellipsis = vec![glyph(0, ellipsis)];
    tables
}

/// Times a line from the paragraph's beginning on both sides. The library copies and checks its tables once for all the lines of a round; that is taken off.
fn line_times(tables: &lines::Tables, mode: lines::Mode, width: f32) -> (f64, f64) {
    let rust_side = rust::prepare(tables);
    let mut library_side = library::prepare(tables);
    let q = lines::Question::at([0, 0, 0], mode, Some(width));
    least_of_two(
        again(|| {
            black_box(rust::visual_line(black_box(&rust_side), black_box(&q)));
        }),
        |times| library::lay_often(&mut library_side, black_box(&q), times),
    )
}

/// Paragraphs of these many glyphs, in words of 4: in spans of 16 words where there are so many, or in one span.
fn in_spans(count: usize) -> Extent {
    match count {
        40 => Extent { spans: 2, words: 5, glyphs: 4 },
        _ => Extent { spans: count / 64, words: 16, glyphs: 4 },
    }
}

fn in_one_span(count: usize) -> Extent {
    Extent { spans: 1, words: count / 4, glyphs: 4 }
}

fn closing_lines() {
    head("closing lines, by glyphs", &SIZES, "a glyph, 16,384 to 40");
    let kinds: [(&str, fn(usize) -> Extent, f32, f32); 4] = [
        ("spans of 16 words, cut in half", in_spans, 1.0, 0.5),
        ("spans of 16 words that fit", in_spans, 1.0, 2.0),
        ("one span, cut in half", in_one_span, 1.0, 0.5),
        ("one span of glyphs of width 0", in_one_span, 0.0, 1.0),
    ];
    for (name, extent, advance, share) in kinds {
        for mode in lines::MODES {
            compare_row(&format!("{name}, {mode:?}"), &SIZES, |count| {
                line_times(&paragraph(extent(count), advance, 1.0), mode, count as f32 * share)
            });
        }
    }
}

/// Where the words still to walk must be added at each word: all words together are as wide as the line and as the ellipsis, so that with the ellipsis
/// each word is too wide, and the rest, which is never over the ellipsis, must be told.
fn quadratic_lines() {
    const WORDS: [usize; 3] = [256, 1024, 4096];
    head("where the rest must be added at each word, by words", &WORDS, "a word, 4,096 to 256");
    for mode in [lines::Mode::Start, lines::Mode::Middle, lines::Mode::End] {
        compare_row(&format!("{mode:?}"), &WORDS, |count| {
            let tables = paragraph(Extent { spans: 1, words: count, glyphs: 1 }, 64.0 / count as f32, 64.0);
            line_times(&tables, mode, 64.0)
        });
    }
}

/// How much longer a job takes than what it is based on.
fn added(base: impl FnMut(), job: impl FnMut()) -> f64 {
    let (base, whole) = least_of_two(again(base), again(job));
    (whole - base).max(0.0)
}

fn time_entry_row(name: &str, time: impl Fn(usize) -> f64) {
    let times: Vec<f64> = SIZES.iter().map(|&count| time(count)).collect();
    time_row(name, &SIZES, &times);
}

/// What has no counterpart in the Rust: times alone. The time in which tables are made up, and an entry is opened for a call, is taken off.
fn entries() {
    head("entries and the check, by glyphs (spans of 16 words of 4)", &SIZES, "a glyph, 16,384 to 40");
    let make_up = |count: usize, checks: usize| library::check_often(&in_spans(count), checks);
    let lay = |count: usize, calls: Calls| {
        black_box(library::lay_entry(black_box(&in_spans(count)), black_box(&calls)));
    };
    // a mode of no number: the entry is not closed
    let only_open = Calls { width: 1.0, takes: 0, mode: 9 };
    time_entry_row("the check of tables", |count| least_of_two(|times| make_up(count, times), again(|| ())).0);
    time_entry_row("open", |count| added(|| make_up(count, 0), || lay(count, only_open)));
    for (name, width) in [("take, all glyphs as one line", 20_000.0), ("take, all glyphs in lines of 40", 40.0)] {
        time_entry_row(name, |count| added(|| lay(count, only_open), || lay(count, Calls { width, takes: count, ..only_open })));
    }
    for mode in lines::MODES {
        time_entry_row(&format!("close with visual order, cut in half, {mode:?}"), |count| {
            added(|| lay(count, only_open), || lay(count, Calls { width: count as f32 / 2.0, takes: 0, mode: mode as u8 }))
        });
    }
}

pub fn compare() -> bool {
    println!("A cell of a comparison is the library's time over the Rust's, with the library's time; below 1 the library is faster. The last column is how much");
    println!("longer one element takes at the largest size than at the smallest.");
    orders();
    resets();
    points();
    closing_lines();
    quadratic_lines();
    entries();
    true
}
