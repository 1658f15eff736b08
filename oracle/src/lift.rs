//! Lifts items unchanged out of cosmic-text's src/shape.rs, so that rustc alone can build them.
//!
//! Usage: lift SHAPE.RS > lifted.rs. Types that lead to fonts and shaping are left out; support.rs stands in for them.
//! With a second word, as in lift SHAPE.RS corrected, the differences of lines that docs/DIFFERENCES.md lists are corrected in the text, by the edits below:
//! where a line differs from the Rust's as it stands, it is held to the Rust that is so corrected.

use std::env;
use std::fs;

/// Where the item that begins at `start` ends: after the brace that closes its first one. Braces in line comments do not count.
fn item_end(text: &str, start: usize) -> usize {
    let mut depth = 0;
    let mut at = start;
    for line in text[start..].split_inclusive('\n') {
        let code = line.split("//").next().unwrap_or("");
        for c in code.chars() {
            match c {
                '{' => depth += 1,
                '}' => {
                    depth -= 1;
                    if depth == 0 {
                        return at + line.rfind('}').unwrap() + 1;
                    }
                }
                _ => {}
            }
        }
        at += line.len();
    }
    panic!("an item without an end");
}

/// The item whose first line begins with `head`, with the attributes above it.
fn item<'a>(text: &'a str, head: &str) -> &'a str {
    let needle = format!("\n{head}");
    let mut start = text.find(&needle).unwrap_or_else(|| panic!("no item {head}")) + 1;
    let end = item_end(text, start);
    while let Some(before) = text[..start - 1].rfind('\n') {
        if text[before + 1..start].starts_with("#[derive") {
            start = before + 1;
        } else {
            break;
        }
    }
    &text[start..end]
}

/// The method `name` of the first `impl` block of `owner` that has one.
fn method<'a>(text: &'a str, owner: &str, name: &str) -> &'a str {
    let head = format!("\nimpl {owner} {{");
    let mut from = 0;
    while let Some(found) = text[from..].find(&head) {
        let start = from + found + 1;
        let end = item_end(text, start);
        let block = &text[start..end];
        for form in [format!("    fn {name}("), format!("    pub fn {name}(")] {
            if let Some(at) = block.find(&form) {
                return &block[at..item_end(block, at)];
            }
        }
        from = end;
    }
    panic!("no method {name} of {owner}");
}

/// The corrections, as text that stands once in the lifted items and what it is replaced with.
const CORRECTIONS: [(&str, &str); 8] = [
    // without a start a line starts at the first span's opening edge
    (
        "            SpanWordGlyphPos::ZERO
        };",
        "            match spans.first() {
                Some(first) if rtl != first.level.is_rtl() => SpanWordGlyphPos { span: 0, word: first.words.len(), glyph: 0 },
                _ => SpanWordGlyphPos::ZERO,
            }
        };",
    ),
    // a forward walk from inside a word of an incongruent span walks that word's part ahead too
    (
        "(0..start.word).rev().collect()",
        "(0..start.word + usize::from(start.glyph > 0)).rev().collect()",
    ),
    // and where none of that part's glyphs fits, the cut is at its end, not at the word's
    ("let mut glyph_end = word.glyphs.len();", "let mut glyph_end = end_glyph_pos;"),
    // of the words still to walk backward only what is ahead of the position counts
    ("        start_span: usize,\n", "        start: SpanWordGlyphPos,\n"),
    (
        "                                    start.span,\n                                    span_count,",
        "                                    start,\n                                    span_count,",
    ),
    (
        "(LayoutDirection::Backward, false) => word_idx + 1..word_count,
        };
        for wi in word_range {
            acc += spans[span_index].words[wi].width(font_size);",
        "(LayoutDirection::Backward, false) if span_index == start.span => word_idx + 1..start.word + usize::from(start.glyph > 0),
            (LayoutDirection::Backward, false) => word_idx + 1..word_count,
        };
        for wi in word_range {
            let word = &spans[span_index].words[wi];
            let (from, to) = Self::get_glyph_start_end(word, start, span_index, wi, direction, congruent);
            acc += word.glyphs[from..to].iter().fold(0.0, |w, glyph| w + glyph.width(font_size));",
    ),
    (
        "LayoutDirection::Backward => start_span..span_index,
        };
        for si in span_range {
            for w in &spans[si].words {
                acc += w.width(font_size);",
        "LayoutDirection::Backward => start.span..span_index,
        };
        for si in span_range {
            // only a backward walk has the position's own span among the rest
            let along = congruent == (spans[si].level.is_rtl() == spans[span_index].level.is_rtl());
            let words = match (si == start.span, along) {
                (true, true) => start.word..spans[si].words.len(),
                (true, false) => 0..start.word + usize::from(start.glyph > 0),
                (false, _) => 0..spans[si].words.len(),
            };
            for wi in words {
                let word = &spans[si].words[wi];
                let (from, to) = Self::get_glyph_start_end(word, start, si, wi, direction, along);
                acc += word.glyphs[from..to].iter().fold(0.0, |w, glyph| w + glyph.width(font_size));",
    ),
    // a cut half without a range leaves the ellipsis alone, whatever the width
    ("None if forward_pass_overflowed && width > ellipsis_w => {", "None if forward_pass_overflowed => {"),
];

fn corrected(lifted: &str) -> String {
    let mut text = lifted.to_string();
    for (old, new) in CORRECTIONS {
        assert_eq!(text.matches(old).count(), 1, "{old}");
        text = text.replace(old, new);
    }
    text
}

/// Everything that is compared, as one text.
fn lifted(text: &str) -> String {
    let mut out = String::from("// Made by lift.rs from cosmic-text 0.19.0, src/shape.rs.\nconst ELLIPSIS_SPAN: usize = usize::MAX;\n\n");
    for head in [
        "struct WordGlyphPos {",
        "impl WordGlyphPos {",
        "struct SpanWordGlyphPos {",
        "impl SpanWordGlyphPos {",
        "enum LayoutDirection {",
        "struct VlRange {",
        "impl Default for VlRange {",
        "struct VisualLine {",
        "impl VisualLine {",
    ] {
        out += item(text, head);
        out += "\n\n";
    }
    for (owner, names) in [
        ("ShapeGlyph", vec!["width"]),
        ("ShapeWord", vec!["width"]),
        (
            "ShapeLine",
            vec![
                "adjust_levels",
                "reorder",
                "get_glyph_start_end",
                "fit_glyphs",
                "add_to_visual_line",
                "remaining_content_exceeds",
                "layout_spans",
                "layout_middle",
                "get_span_words",
                "byte_range_of_vlrange",
                "compute_elided_byte_range",
                "max_byte_offset",
                "ellipsis_w",
                "ellipsis_vlrange",
                "ellipsis_level_between",
                "layout_line",
            ],
        ),
    ] {
        let methods: Vec<&str> = names.iter().map(|name| method(text, owner, name)).collect();
        out += &format!("impl {owner} {{\n{}\n}}\n\n", methods.join("\n\n"));
    }
    out
}

fn main() {
    let path = env::args().nth(1).expect("the path of shape.rs");
    let text = lifted(&fs::read_to_string(path).expect("shape.rs"));
    match env::args().nth(2) {
        Some(_) => print!("{}", corrected(&text)),
        None => print!("{text}"),
    }
}
