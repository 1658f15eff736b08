//! Closing lines of small paragraphs, every one of a family: at every position, by every mode, at every width that can tell.
//!
//! Advances and the ellipsis are whole numbers at size 1, so all sums are exact, and each comparison is of sums with W, W − e, half of W or (W − first) − e: a
//! width between two whole numbers acts as the lower one, and every width from the sum of all glyphs on acts alike. So whole widths from 0 to one past
//! that sum, with the ellipsis added, stand for all widths.

use crate::Effort;
use crate::lines::{self, Counts, Glyph, MODES, Mode, Question, Span, Tables};
use crate::lists_of;

#[derive(Clone, Debug)]
struct SmallWord {
    blank: bool,
    advances: Vec<u8>,
}

#[derive(Clone, Debug)]
struct SmallSpan {
    level: u8,
    words: Vec<SmallWord>,
}

/// Spans by how many glyphs each of their words has; a word of one glyph is blank.
const SIX_SHAPES: [&[usize]; 6] = [&[], &[0], &[1], &[2], &[1, 1], &[0, 2]];

/// The paragraphs of a family, to be laid in both directions.
struct Family {
    name: &'static str,
    ellipses: &'static [u8],
    paragraphs: Vec<Vec<SmallSpan>>,
}

/// Every word of up to `longest` glyphs of these advances, not blank.
fn words_of(advances: &[u8], longest: usize) -> Vec<SmallWord> {
    lists_of(advances, longest).into_iter().map(|advances| SmallWord { blank: false, advances }).collect()
}

/// The same words, and each of them blank.
fn and_blank(words: &[SmallWord]) -> Vec<SmallWord> {
    [false, true].iter().flat_map(|&blank| words.iter().map(move |word| SmallWord { blank, ..word.clone() })).collect()
}

/// Every span of up to `longest` of these words, at each of these levels.
fn spans_of(levels: &[u8], words: &[SmallWord], longest: usize) -> Vec<SmallSpan> {
    let lists = lists_of(words, longest);
    levels.iter().flat_map(|&level| lists.iter().map(move |words| SmallSpan { level, words: words.clone() })).collect()
}

/// Every paragraph of up to 3 of these spans with at most so many words and glyphs in all.
fn paragraphs_within(spans: &[SmallSpan], words: usize, glyphs: usize) -> Vec<Vec<SmallSpan>> {
    let glyph_count = |span: &SmallSpan| span.words.iter().map(|word| word.advances.len()).sum::<usize>();
    // each list with the words and glyphs that it leaves
    let mut all = vec![(Vec::new(), words, glyphs)];
    let mut from = 0;
    for _ in 0..3 {
        let to = all.len();
        for i in from..to {
            let (list, words, glyphs) = all[i].clone();
            for span in spans.iter().filter(|span| span.words.len() <= words && glyph_count(span) <= glyphs) {
                let more = [&list[..], &[span.clone()]].concat();
                all.push((more, words - span.words.len(), glyphs - glyph_count(span)));
            }
        }
        from = to;
    }
    all.into_iter().map(|(list, _, _)| list).collect()
}

fn families() -> Vec<Family> {
    let both = [0, 1];
    let short = words_of(&[1, 2], 2);
    let single = [(true, vec![]), (false, vec![1]), (true, vec![1])].map(|(blank, advances)| SmallWord { blank, advances });
    let shape = |level: u8, lens: &[usize]| SmallSpan {
        level,
        words: lens.iter().map(|&len| SmallWord { blank: len == 1, advances: vec![1; len] }).collect(),
    };
    let six: Vec<SmallSpan> = [0, 1, 2].iter().flat_map(|&level| SIX_SHAPES.map(|lens| shape(level, lens))).collect();
    vec![
        Family {
            name: "one span of up to 3 words of up to 3 glyphs, advances 1 and 2",
            ellipses: &[1, 2],
            paragraphs: lists_of(&spans_of(&both, &words_of(&[1, 2], 3), 3), 1),
        },
        Family {
            name: "one span of up to 3 words of up to 2 glyphs, advances 0, 1 and 2",
            ellipses: &[0, 1, 3],
            paragraphs: lists_of(&spans_of(&both, &words_of(&[0, 1, 2], 2), 3), 1),
        },
        Family {
            name: "one span of up to 2 words, blank or not, of up to 3 glyphs, advances 1 and 2",
            ellipses: &[1],
            paragraphs: lists_of(&spans_of(&both, &and_blank(&words_of(&[1, 2], 3)), 2), 1),
        },
        Family {
            name: "up to 2 spans of up to 2 words of up to 2 glyphs, advances 1 and 2",
            ellipses: &[1, 2],
            paragraphs: lists_of(&spans_of(&both, &short, 2), 2),
        },
        Family {
            name: "up to 3 spans of up to 2 words, each blank and empty, or one glyph of advance 1 and blank or not",
            ellipses: &[1],
            paragraphs: lists_of(&spans_of(&both, &single, 2), 3),
        },
        Family {
            name: "up to 3 spans with at most 3 words and 4 glyphs in all, up to 3 glyphs a word, advances 1 and 2",
            ellipses: &[1, 2],
            paragraphs: paragraphs_within(&spans_of(&both, &words_of(&[1, 2], 3), 3), 3, 4),
        },
        Family {
            name: "up to 3 spans with at most 4 words and 5 glyphs in all, up to 3 words a span and 3 glyphs a word, advance 1",
            ellipses: &[1],
            paragraphs: paragraphs_within(&spans_of(&both, &words_of(&[1], 3), 3), 4, 5),
        },
        Family {
            name: "up to 3 spans of six shapes, levels 0, 1 and 2, advance 1",
            ellipses: &[1],
            paragraphs: lists_of(&six, 3),
        },
    ]
}

/// The tables of a paragraph; each glyph is one byte.
fn tables_of(rtl: bool, spans: &[SmallSpan], ellipsis: u8) -> Tables {
    let glyph = |byte: usize, advance: u8| Glyph { start: byte as u16, end: byte as u16 + 1, advance: f32::from(advance), size: None };
    let mut tables = Tables { rtl, ellipsis: vec![glyph(0, ellipsis)], ..Tables::default() };
    for span in spans {
        let offset = tables.words.len();
        for word in &span.words {
            let first = tables.glyphs.len();
            let glyphs: Vec<Glyph> = word.advances.iter().enumerate().map(|(i, &advance)| glyph(first + i, advance)).collect();
            tables.push_word(word.blank, &glyphs);
        }
        tables.spans.push(Span { level: span.level, offset, len: span.words.len() });
    }
    tables
}

/// Every mode at every telling width, and without a width.
fn questions(tables: &Tables) -> Vec<(Mode, Option<f32>)> {
    let all: f32 = tables.glyphs.iter().chain(&tables.ellipsis).map(|g| g.advance).sum();
    let mut asked: Vec<(Mode, Option<f32>)> = MODES.iter().map(|&mode| (mode, None)).collect();
    asked.push((Mode::None, Some(1.0)));
    for mode in [Mode::Start, Mode::Middle, Mode::End] {
        asked.extend((0..=all as usize + 1).map(|width| (mode, Some(width as f32))));
    }
    asked
}

fn compare_paragraph(tables: &Tables, counts: &mut Counts) -> bool {
    let mut sides = lines::prepare(tables);
    let asked = questions(tables);
    // every position, and once more the beginning, where the Rust is given no start
    let mut starts: Vec<([usize; 3], bool)> = tables.positions().into_iter().map(|position| (position, true)).collect();
    starts.push((tables.opening_edge(0), false));
    for (position, started) in starts {
        for &(mode, width) in &asked {
            let q = Question { started, ..Question::at(position, mode, width) };
            if !lines::agrees(tables, &mut sides, &q, counts) {
                return false;
            }
        }
    }
    true
}

pub fn compare(effort: Effort) -> bool {
    let mut all = Counts::default();
    for family in families() {
        let mut counts = Counts::default();
        let mut paragraphs = 0;
        // a share is spread over the family
        let step = family.paragraphs.len() / effort.of(family.paragraphs.len()).max(1);
        for spans in family.paragraphs.iter().step_by(step) {
            for &ellipsis in family.ellipses {
                for rtl in [false, true] {
                    paragraphs += 1;
                    if !compare_paragraph(&tables_of(rtl, spans, ellipsis), &mut counts) {
                        return false;
                    }
                }
            }
        }
        println!("small: {} lines of {paragraphs} paragraphs: {}; the ellipsis of {:?}", counts.compared, family.name, family.ellipses);
        all.add(&counts);
    }
    all.report("small", "lines of small paragraphs");
    all.report_smallest();
    true
}
