//! Unicode's own test files, BidiTest.txt and BidiCharacterTest.txt: rules L1 and L2 held to every line of both.
//!
//! The files give levels after L1 and the visual order of the characters that X9 keeps. For L2 these levels are ordered. For L1 the levels before it come
//! from `resolve`, and what the library makes of them must be the file's.

use crate::levels::NAMES;
use crate::library;
use crate::resolve::{self, Bracket, Direction};
use crate::spaced;
use std::collections::{BTreeMap, HashMap};
use std::fs;
use std::path::Path;

// where Debian's package unicode-data puts them
const FOLDER: &str = "/usr/share/unicode";
// a level for the characters that X9 removes: the files give none
const ANY_LEVEL: u8 = 9;
const STORED_LISTS: usize = 400;

/// A line of a file: what it gives, and what it says that comes of it.
struct Case {
    classes: Vec<u8>,
    brackets: Vec<Option<Bracket>>,
    direction: Direction,
    paragraph: Option<u8>,
    levels: Vec<Option<u8>>,
    order: Vec<usize>,
}

#[derive(Default)]
struct Counts {
    lines: usize,
    cases: usize,
    reset: usize,
}

fn read(name: &str) -> Option<String> {
    fs::read_to_string(Path::new(FOLDER).join(name)).ok()
}

/// The version that a file names in its first line.
fn version(text: &str) -> &str {
    text.lines().next().unwrap_or("").trim_start_matches("# ")
}

fn levels_of(text: &str) -> Vec<Option<u8>> {
    text.split_whitespace().map(|word| word.parse().ok()).collect()
}

fn numbers_of(text: &str) -> Vec<usize> {
    text.split_whitespace().map(|word| word.parse().expect("a number")).collect()
}

/// The cases of BidiTest.txt, which names classes and stands for each paragraph direction of its set.
fn each_of_classes(text: &str, counts: &mut Counts, mut each: impl FnMut(&Case, &mut Counts) -> bool) -> bool {
    let codes: HashMap<&str, u8> = NAMES.iter().enumerate().map(|(code, &name)| (name, code as u8)).collect();
    let (mut levels, mut order) = (Vec::new(), Vec::new());
    for line in text.lines() {
        if let Some(rest) = line.strip_prefix("@Levels:") {
            levels = levels_of(rest);
        } else if let Some(rest) = line.strip_prefix("@Reorder:") {
            order = numbers_of(rest);
        } else if let Some((input, set)) = line.split_once(';').filter(|_| !line.starts_with(['#', '@'])) {
            let classes: Vec<u8> = input.split_whitespace().map(|name| codes[name]).collect();
            let set: u8 = set.trim().parse().expect("a set of directions");
            counts.lines += 1;
            for (bit, direction) in [(1, Direction::Auto), (2, Direction::LeftToRight), (4, Direction::RightToLeft)] {
                let case = Case {
                    classes: classes.clone(),
                    brackets: vec![None; classes.len()],
                    direction,
                    paragraph: None,
                    levels: levels.clone(),
                    order: order.clone(),
                };
                if set & bit != 0 && !each(&case, counts) {
                    return false;
                }
            }
        }
    }
    true
}

/// Rows `FIRST..LAST ; NAME` of a file of properties.
fn property_rows(text: &str) -> impl Iterator<Item = (u32, u32, Vec<&str>)> {
    text.lines().filter_map(|line| {
        let row = line.split('#').next().unwrap_or("");
        let mut fields = row.split(';').map(str::trim);
        let codes = fields.next().filter(|codes| !codes.is_empty())?;
        let (first, last) = codes.split_once("..").unwrap_or((codes, codes));
        let code = |hex: &str| u32::from_str_radix(hex, 16).expect("a code point");
        Some((code(first), code(last), fields.collect()))
    })
}

/// The bidi class of each code point that DerivedBidiClass.txt names; the defaults of the others do not occur in the test file.
fn class_table(text: &str) -> HashMap<u32, u8> {
    let mut table = HashMap::new();
    for (first, last, fields) in property_rows(text) {
        let class = NAMES.iter().position(|&name| name == fields[0]).expect("a class") as u8;
        table.extend((first..=last).map(|code| (code, class)));
    }
    table
}

/// The brackets of BidiBrackets.txt, each pair by the code point that opens it. The angle brackets at 2329 and 3008 are canonically equivalent.
fn bracket_table(text: &str) -> HashMap<u32, Bracket> {
    let mut table = HashMap::new();
    for (code, _, fields) in property_rows(text) {
        let opens = fields[1] == "o";
        let other = u32::from_str_radix(fields[0], 16).expect("a code point");
        let pair = match if opens { code } else { other } {
            0x2329 => 0x3008,
            pair => pair,
        };
        table.insert(code, Bracket { pair, opens });
    }
    table
}

/// The cases of BidiCharacterTest.txt, which names characters.
fn each_of_characters(
    text: &str,
    classes: &HashMap<u32, u8>,
    brackets: &HashMap<u32, Bracket>,
    counts: &mut Counts,
    mut each: impl FnMut(&Case, &mut Counts) -> bool,
) -> bool {
    for line in text.lines().filter(|line| !line.starts_with('#') && line.contains(';')) {
        let fields: Vec<&str> = line.split(';').collect();
        let codes: Vec<u32> = fields[0].split_whitespace().map(|hex| u32::from_str_radix(hex, 16).expect("a code point")).collect();
        let case = Case {
            classes: codes.iter().map(|code| classes[code]).collect(),
            brackets: codes.iter().map(|code| brackets.get(code).copied()).collect(),
            direction: [Direction::LeftToRight, Direction::RightToLeft, Direction::Auto][fields[1].parse::<usize>().expect("a direction")],
            paragraph: fields[2].parse().ok(),
            levels: levels_of(fields[3]),
            order: numbers_of(fields[4]),
        };
        counts.lines += 1;
        if !each(&case, counts) {
            return false;
        }
    }
    true
}

/// The levels of the characters that are kept, and the order as places among these.
fn kept(case: &Case) -> (Vec<u8>, Vec<usize>) {
    let places: Vec<usize> = (0..case.levels.len()).filter(|&i| case.levels[i].is_some()).collect();
    let levels = places.iter().filter_map(|&i| case.levels[i]).collect();
    let order = case.order.iter().map(|i| places.binary_search(i).expect("an index of a kept character")).collect();
    (levels, order)
}

/// L2: the file's levels, put in visual order.
fn order_agrees(case: &Case) -> bool {
    let (levels, expected) = kept(case);
    let mut order = vec![0; levels.len()];
    library::reorder(&levels, &mut order) == 0 && order == expected
}

/// L1: the levels before it, reset, are the file's at every character that is kept.
fn resets_agree(case: &Case, counts: &mut Counts) -> bool {
    let (paragraph, before) = resolve::resolve(&case.classes, &case.brackets, case.direction);
    let mut levels: Vec<u8> = before.iter().map(|level| level.unwrap_or(ANY_LEVEL)).collect();
    let granted = library::adjust_levels(paragraph, &case.classes, &vec![1; levels.len()], &mut levels) == 0;
    let after: Vec<Option<u8>> = before.iter().zip(&levels).map(|(level, &reset)| level.map(|_| reset)).collect();
    counts.reset += (after != before) as usize;
    granted && after == case.levels && case.paragraph.is_none_or(|level| level == paragraph)
}

fn agrees(case: &Case, counts: &mut Counts) -> bool {
    counts.cases += 1;
    let names: Vec<&str> = case.classes.iter().map(|&class| NAMES[class as usize]).collect();
    for (rule, good) in [("L2", order_agrees(case)), ("L1", resets_agree(case, counts))] {
        if !good {
            println!("unicode: {rule} differs on {} {:?}, levels {:?}, order {:?}", names.join(" "), case.direction, case.levels, case.order);
            return false;
        }
    }
    true
}

/// The four files, or nothing if one is missing.
fn files() -> Option<[String; 4]> {
    Some([
        read("BidiTest.txt")?,
        read("BidiCharacterTest.txt")?,
        read("extracted/DerivedBidiClass.txt")?,
        read("BidiBrackets.txt")?,
    ])
}

pub fn compare() -> bool {
    let Some([by_class, by_character, classes, brackets]) = files() else {
        println!("unicode: SKIPPED, nothing was compared: {FOLDER} lacks BidiTest.txt, BidiCharacterTest.txt, BidiBrackets.txt or extracted/DerivedBidiClass.txt (Debian: apt-get install unicode-data)");
        return true;
    };
    let report = |text: &str, counts: &Counts| {
        println!(
            "unicode: {}: {} lines, {} cases: L2 and L1 agree on all; L1 changes a level in {}",
            version(text),
            counts.lines,
            counts.cases,
            counts.reset
        );
    };
    let mut counts = Counts::default();
    if !each_of_classes(&by_class, &mut counts, agrees) {
        return false;
    }
    report(&by_class, &counts);
    let mut counts = Counts::default();
    if !each_of_characters(&by_character, &class_table(&classes), &bracket_table(&brackets), &mut counts, agrees) {
        return false;
    }
    report(&by_character, &counts);
    true
}

/// Writes distinct level lists of both files with the order that they give, in the format of the program `replay_order`: evenly picked from all that there
/// are, sorted by length and levels.
pub fn sample() -> bool {
    let Some([by_class, by_character, classes, brackets]) = files() else {
        eprintln!("compare: the files of Unicode are missing");
        return false;
    };
    let mut lists: BTreeMap<(usize, Vec<u8>), Vec<usize>> = BTreeMap::new();
    let mut keep = |case: &Case, _: &mut Counts| {
        let (levels, order) = kept(case);
        lists.insert((levels.len(), levels), order);
        true
    };
    each_of_classes(&by_class, &mut Counts::default(), &mut keep);
    each_of_characters(&by_character, &class_table(&classes), &bracket_table(&brackets), &mut Counts::default(), &mut keep);
    lists.remove(&(0, Vec::new()));
    let step = lists.len().div_ceil(STORED_LISTS);
    for ((_, levels), order) in lists.iter().step_by(step) {
        println!("{} ; {}", spaced(levels), spaced(order));
    }
    true
}
