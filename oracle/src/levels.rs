//! Level resets: `adjust_levels` on both sides.

use crate::Effort;
use crate::library;
use crate::lists_of;
use crate::random::Random;
use crate::rust;
use crate::spaced;

pub const NAMES: [&str; 23] = [
    "L", "R", "AL", "EN", "ES", "ET", "AN", "CS", "NSM", "BN", "B", "S", "WS", "ON", "LRE", "LRO", "RLE", "RLO", "PDF", "LRI", "RLI", "FSI", "PDI",
];
// one class of each kind that the Rust tells apart: a letter, one that X9 removes, a separator, white space
const KINDS: [u8; 4] = [0, 9, 11, 12];
const RANDOM_LINES: usize = 1_000_000;

/// A line: the paragraph's level, a class and a byte length for each character, a level for each byte.
pub struct Line {
    pub paragraph: u8,
    pub classes: Vec<u8>,
    pub lengths: Vec<u8>,
    pub levels: Vec<u8>,
}

/// The line with byte lengths and levels that tell its characters apart.
fn line_of(classes: Vec<u8>, random: &mut Random) -> Line {
    let lengths: Vec<u8> = classes.iter().map(|_| random.below(4) as u8 + 1).collect();
    let bytes = lengths.iter().map(|&len| len as usize).sum();
    Line {
        paragraph: random.below(2) as u8,
        levels: (0..bytes).map(|_| random.below(125) as u8 + 2).collect(),
        classes,
        lengths,
    }
}

fn random_classes(random: &mut Random, longest: usize) -> Vec<u8> {
    let count = random.below(longest + 1);
    match random.below(2) {
        0 => (0..count).map(|_| random.below(23) as u8).collect(),
        _ => (0..count).map(|_| random.one_of(&KINDS)).collect(),
    }
}

fn agrees(line: &Line) -> bool {
    let mut levels = line.levels.clone();
    library::adjust_levels(line.paragraph, &line.classes, &line.lengths, &mut levels) == 0 && levels == rust::adjust_levels(line)
}

pub fn compare(effort: Effort) -> bool {
    let mut random = Random(3);
    let mut compared = 0;
    let mut classes = lists_of(&KINDS, 5);
    classes.extend((0..effort.of(RANDOM_LINES)).map(|_| random_classes(&mut random, 24)));
    for classes in classes {
        let line = line_of(classes, &mut random);
        compared += 1;
        if !agrees(&line) {
            println!("levels: differs on {:?} of lengths {:?} at {:?}", line.classes, line.lengths, line.levels);
            return false;
        }
    }
    println!("levels: {compared} lines compared; no difference");
    true
}

/// Writes a sample of the Rust's answers, a line each: paragraph level, classes, byte lengths, levels, and levels after, parted by ` ; `.
pub fn sample() -> bool {
    let mut random = Random(4);
    let mut all = lists_of(&KINDS, 4);
    all.extend((0..1500).map(|_| random_classes(&mut random, 12)));
    for classes in all {
        if classes.is_empty() {
            continue;
        }
        let line = line_of(classes, &mut random);
        let names: Vec<&str> = line.classes.iter().map(|&class| NAMES[class as usize]).collect();
        let after = rust::adjust_levels(&line);
        println!(
            "{} ; {} ; {} ; {} ; {}",
            line.paragraph,
            names.join(" "),
            spaced(&line.lengths),
            spaced(&line.levels),
            spaced(&after)
        );
    }
    true
}
