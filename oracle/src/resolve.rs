//! Rules P2 to I2 of UAX #9: the levels of a line of one paragraph from the bidi classes of its characters, as they are before rule L1.
//!
//! The library begins at rule L1. This stands before it where it is held to Unicode's test files, which give levels after L1 alone; it shares no code
//! with the library or with the Rust.

const L: u8 = 0;
const R: u8 = 1;
const AL: u8 = 2;
const EN: u8 = 3;
const ES: u8 = 4;
const ET: u8 = 5;
const AN: u8 = 6;
const CS: u8 = 7;
const NSM: u8 = 8;
const BN: u8 = 9;
const B: u8 = 10;
const S: u8 = 11;
const WS: u8 = 12;
const ON: u8 = 13;
const LRE: u8 = 14;
const LRO: u8 = 15;
const RLE: u8 = 16;
const RLO: u8 = 17;
const PDF: u8 = 18;
const LRI: u8 = 19;
const RLI: u8 = 20;
const FSI: u8 = 21;
const PDI: u8 = 22;

const MAX_DEPTH: u8 = 125;
const MOST_OPEN_BRACKETS: usize = 63;

#[derive(Clone, Copy, Debug, PartialEq, Eq)]
pub enum Direction {
    Auto,
    LeftToRight,
    RightToLeft,
}

/// A paired bracket: which pair it is of, by one number for each, and whether it opens it.
#[derive(Clone, Copy, Debug)]
pub struct Bracket {
    pub pair: u32,
    pub opens: bool,
}

fn is_initiator(class: u8) -> bool {
    matches!(class, LRI | RLI | FSI)
}

/// X9 removes embeddings, overrides, their ends, and BN.
fn is_removed(class: u8) -> bool {
    matches!(class, LRE | LRO | RLE | RLO | PDF | BN)
}

fn is_neutral(class: u8) -> bool {
    matches!(class, B | S | WS | ON | FSI | LRI | RLI | PDI)
}

/// BD9: for each isolate initiator the PDI that matches it.
fn matching_pdis(classes: &[u8]) -> Vec<Option<usize>> {
    let mut matching = vec![None; classes.len()];
    let mut open = Vec::new();
    for (i, &class) in classes.iter().enumerate() {
        if is_initiator(class) {
            open.push(i);
        } else if class == PDI {
            if let Some(initiator) = open.pop() {
                matching[initiator] = Some(i);
            }
        }
    }
    matching
}

/// P2 and P3 on a stretch: the level of its first strong character outside isolates, or 0.
fn first_strong(classes: &[u8], matching: &[Option<usize>], from: usize, to: usize) -> u8 {
    let mut i = from;
    while i < to {
        match classes[i] {
            L => return 0,
            R | AL => return 1,
            class if is_initiator(class) => i = matching[i].unwrap_or(to),
            _ => {}
        }
        i += 1;
    }
    0
}

#[derive(Clone, Copy)]
struct Status {
    level: u8,
    overriding: Option<u8>,
    isolate: bool,
}

/// X1 to X8: the explicit level of each character, and its class after overrides.
fn explicit(classes: &[u8], matching: &[Option<usize>], paragraph: u8) -> (Vec<u8>, Vec<u8>) {
    let mut levels = vec![paragraph; classes.len()];
    let mut types = classes.to_vec();
    let mut stack = vec![Status { level: paragraph, overriding: None, isolate: false }];
    let (mut overflow_isolates, mut overflow_embeddings, mut valid_isolates) = (0, 0, 0);
    let next_odd = |level: u8| (level + 1) | 1;
    let next_even = |level: u8| (level + 2) & !1;
    for (i, &class) in classes.iter().enumerate() {
        let last = stack[stack.len() - 1];
        match class {
            RLE | LRE | RLO | LRO => {
                let level = if matches!(class, RLE | RLO) { next_odd(last.level) } else { next_even(last.level) };
                if level <= MAX_DEPTH && overflow_isolates == 0 && overflow_embeddings == 0 {
                    let overriding = match class {
                        RLO => Some(R),
                        LRO => Some(L),
                        _ => None,
                    };
                    stack.push(Status { level, overriding, isolate: false });
                } else if overflow_isolates == 0 {
                    overflow_embeddings += 1;
                }
            }
            RLI | LRI | FSI => {
                levels[i] = last.level;
                types[i] = last.overriding.unwrap_or(class);
                let rtl = match class {
                    RLI => true,
                    LRI => false,
                    _ => first_strong(classes, matching, i + 1, matching[i].unwrap_or(classes.len())) == 1,
                };
                let level = if rtl { next_odd(last.level) } else { next_even(last.level) };
                if level <= MAX_DEPTH && overflow_isolates == 0 && overflow_embeddings == 0 {
                    valid_isolates += 1;
                    stack.push(Status { level, overriding: None, isolate: true });
                } else {
                    overflow_isolates += 1;
                }
            }
            PDI => {
                if overflow_isolates > 0 {
                    overflow_isolates -= 1;
                } else if valid_isolates > 0 {
                    overflow_embeddings = 0;
                    while !stack[stack.len() - 1].isolate {
                        stack.pop();
                    }
                    stack.pop();
                    valid_isolates -= 1;
                }
                let last = stack[stack.len() - 1];
                levels[i] = last.level;
                types[i] = last.overriding.unwrap_or(class);
            }
            PDF => {
                if overflow_isolates == 0 && overflow_embeddings > 0 {
                    overflow_embeddings -= 1;
                } else if overflow_isolates == 0 && !last.isolate && stack.len() >= 2 {
                    stack.pop();
                }
            }
            B | BN => {}
            _ => {
                levels[i] = last.level;
                types[i] = last.overriding.unwrap_or(class);
            }
        }
    }
    (levels, types)
}

/// An isolating run sequence: its characters, and the directions at its start and its end.
struct Sequence {
    places: Vec<usize>,
    level: u8,
    sos: u8,
    eos: u8,
}

/// BD13 and X10: the isolating run sequences of the characters that are kept.
fn sequences(classes: &[u8], matching: &[Option<usize>], levels: &[u8], paragraph: u8) -> Vec<Sequence> {
    let kept: Vec<usize> = (0..classes.len()).filter(|&i| !is_removed(classes[i])).collect();
    let mut runs: Vec<Vec<usize>> = Vec::new();
    let mut run_of = vec![0; classes.len()];
    for (k, &i) in kept.iter().enumerate() {
        if k == 0 || levels[kept[k - 1]] != levels[i] {
            runs.push(Vec::new());
        }
        let last = runs.len() - 1;
        runs[last].push(i);
        run_of[i] = last;
    }
    let mut is_matched = vec![false; classes.len()];
    for &pdi in matching.iter().flatten() {
        is_matched[pdi] = true;
    }
    let direction = |a: u8, b: u8| if a.max(b) % 2 == 1 { R } else { L };
    let mut all = Vec::new();
    for run in &runs {
        if is_matched[run[0]] {
            continue;
        }
        let mut places = run.clone();
        while let Some(pdi) = matching[places[places.len() - 1]] {
            places.extend_from_slice(&runs[run_of[pdi]]);
        }
        let (first, last) = (places[0], places[places.len() - 1]);
        let level = levels[first];
        let before = kept.iter().rev().find(|&&i| i < first).map_or(paragraph, |&i| levels[i]);
        let behind = match kept.iter().find(|&&i| i > last) {
            Some(&i) if !is_initiator(classes[last]) => levels[i],
            _ => paragraph,
        };
        all.push(Sequence { sos: direction(before, level), eos: direction(behind, level), places, level });
    }
    all
}

/// W1 to W7 on the types of a sequence.
fn weak(types: &mut [u8], sos: u8) {
    for i in 0..types.len() {
        if types[i] == NSM {
            types[i] = match i {
                0 => sos,
                _ if is_initiator(types[i - 1]) || types[i - 1] == PDI => ON,
                _ => types[i - 1],
            };
        }
    }
    let mut strong = sos;
    for t in types.iter_mut() {
        match *t {
            L | R | AL => strong = *t,
            EN if strong == AL => *t = AN,
            _ => {}
        }
    }
    for t in types.iter_mut() {
        if *t == AL {
            *t = R;
        }
    }
    for i in 1..types.len().saturating_sub(1) {
        let (before, behind) = (types[i - 1], types[i + 1]);
        if before == behind && ((matches!(types[i], ES | CS) && before == EN) || (types[i] == CS && before == AN)) {
            types[i] = before;
        }
    }
    let mut i = 0;
    while i < types.len() {
        let from = i;
        while i < types.len() && types[i] == ET {
            i += 1;
        }
        if from < i && ((from > 0 && types[from - 1] == EN) || (i < types.len() && types[i] == EN)) {
            types[from..i].fill(EN);
        }
        i = i.max(from + 1);
    }
    for t in types.iter_mut() {
        if matches!(*t, ES | ET | CS) {
            *t = ON;
        }
    }
    let mut strong = sos;
    for t in types.iter_mut() {
        match *t {
            L | R => strong = *t,
            EN if strong == L => *t = L,
            _ => {}
        }
    }
}

/// The direction that a type counts as among neutrals.
fn strong_of(t: u8) -> Option<u8> {
    match t {
        L => Some(L),
        R | EN | AN => Some(R),
        _ => None,
    }
}

/// BD16: the pairs of brackets of a sequence, by the places of both in it, sorted by the first.
fn bracket_pairs(types: &[u8], brackets: &[Option<Bracket>]) -> Vec<(usize, usize)> {
    let mut pairs = Vec::new();
    let mut open: Vec<(u32, usize)> = Vec::new();
    for (i, bracket) in brackets.iter().enumerate() {
        let Some(bracket) = bracket.filter(|_| types[i] == ON) else {
            continue;
        };
        if bracket.opens {
            if open.len() == MOST_OPEN_BRACKETS {
                break;
            }
            open.push((bracket.pair, i));
        } else if let Some(at) = open.iter().rposition(|&(pair, _)| pair == bracket.pair) {
            pairs.push((open[at].1, i));
            open.truncate(at);
        }
    }
    pairs.sort();
    pairs
}

/// N0 to N2 on the types of a sequence; `original` are the classes before W1.
fn neutral(types: &mut [u8], original: &[u8], brackets: &[Option<Bracket>], sequence: &Sequence) {
    let embedding = if sequence.level % 2 == 1 { R } else { L };
    for (opening, closing) in bracket_pairs(types, brackets) {
        let inside = || types[opening + 1..closing].iter().filter_map(|&t| strong_of(t));
        let set = if inside().any(|t| t == embedding) {
            embedding
        } else if inside().next().is_some() {
            let before = types[..opening].iter().rev().find_map(|&t| strong_of(t)).unwrap_or(sequence.sos);
            if before == embedding { embedding } else { before }
        } else {
            continue;
        };
        for at in [opening, closing] {
            types[at] = set;
            for i in at + 1..types.len() {
                if original[i] != NSM {
                    break;
                }
                types[i] = set;
            }
        }
    }
    let mut i = 0;
    while i < types.len() {
        let from = i;
        while i < types.len() && is_neutral(types[i]) {
            i += 1;
        }
        if from < i {
            let before = if from == 0 { Some(sequence.sos) } else { strong_of(types[from - 1]) };
            let behind = if i == types.len() { Some(sequence.eos) } else { strong_of(types[i]) };
            types[from..i].fill(if before == behind { before.unwrap_or(embedding) } else { embedding });
        }
        i = i.max(from + 1);
    }
}

/// The paragraph's level, and each character's level before rule L1; nothing for the characters that X9 removes.
pub fn resolve(classes: &[u8], brackets: &[Option<Bracket>], direction: Direction) -> (u8, Vec<Option<u8>>) {
    let matching = matching_pdis(classes);
    let paragraph = match direction {
        Direction::Auto => first_strong(classes, &matching, 0, classes.len()),
        Direction::LeftToRight => 0,
        Direction::RightToLeft => 1,
    };
    let (explicit_levels, types) = explicit(classes, &matching, paragraph);
    let mut levels = vec![None; classes.len()];
    for sequence in sequences(classes, &matching, &explicit_levels, paragraph) {
        let original: Vec<u8> = sequence.places.iter().map(|&i| types[i]).collect();
        let own: Vec<Option<Bracket>> = sequence.places.iter().map(|&i| brackets.get(i).copied().flatten()).collect();
        let mut resolved = original.clone();
        weak(&mut resolved, sequence.sos);
        neutral(&mut resolved, &original, &own, &sequence);
        for (&i, &t) in sequence.places.iter().zip(&resolved) {
            let level = sequence.level;
            levels[i] = Some(match (level % 2, t) {
                (0, R) => level + 1,
                (0, EN | AN) => level + 2,
                (1, L | EN | AN) => level + 1,
                _ => level,
            });
        }
    }
    (paragraph, levels)
}
