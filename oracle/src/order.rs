//! Visual order: `reorder` on both sides.

use crate::Effort;
use crate::library;
use crate::lists_of;
use crate::random::Random;
use crate::rust;
use crate::spaced;

const FEW: [u8; 6] = [0, 1, 2, 3, 125, 126];
const RANDOM_LISTS: usize = 1_000_000;
// a place of the library's list that it must not write to
const UNTOUCHED: usize = usize::MAX - 7;

fn random_list(random: &mut Random) -> Vec<u8> {
    let count = random.below(301);
    match random.below(4) {
        0 => (0..count).map(|_| random.below(127) as u8).collect(),
        1 => (0..count).map(|_| random.below(3) as u8).collect(),
        2 => (0..count).map(|_| random.one_of(&FEW)).collect(),
        _ => {
            // a walk by small steps, as nested text has it
            let mut level = random.below(127) as i32;
            (0..count)
                .map(|_| {
                    level = (level + random.below(5) as i32 - 2).clamp(0, 126);
                    level as u8
                })
                .collect()
        }
    }
}

/// The one listed difference: the Rust stops where every level is 126.
fn stops_rust(levels: &[u8]) -> bool {
    !levels.is_empty() && levels.iter().all(|&level| level == 126)
}

/// Whether the library answers as the Rust does, and leaves the places beyond alone.
fn agrees(levels: &[u8], stopped: &mut usize) -> bool {
    let mut order = vec![UNTOUCHED; levels.len() + 3];
    if library::reorder(levels, &mut order) != 0 {
        return false;
    }
    let (line, beyond) = order.split_at(levels.len());
    if beyond.iter().any(|&place| place != UNTOUCHED) {
        return false;
    }
    if stops_rust(levels) {
        *stopped += 1;
        return line.iter().copied().eq(0..levels.len());
    }
    line == rust::reorder(levels)
}

pub fn compare(effort: Effort) -> bool {
    let mut stopped = 0;
    let mut compared = 0;
    let mut random = Random(1);
    let short = lists_of(&FEW, 6);
    let lists = short.into_iter().chain((0..effort.of(RANDOM_LISTS)).map(|_| random_list(&mut random)));
    for levels in lists {
        compared += 1;
        if !agrees(&levels, &mut stopped) {
            println!("order: differs on {levels:?}");
            return false;
        }
    }
    println!("order: {compared} level lists compared; no unlisted difference; listed ones:");
    println!("  {stopped:>9} level 126 alone, where the Rust stops");
    true
}

/// Writes a sample of the Rust's answers, a line each: the levels, ` ; `, the order.
pub fn sample() -> bool {
    let mut random = Random(2);
    let short = lists_of(&FEW, 3);
    let more = (0..1700).map(|_| {
        let count = random.below(24) + 1;
        let top = random.one_of(&[2, 3, 4, 6, 127]);
        (0..count).map(|_| random.below(top) as u8).collect::<Vec<_>>()
    });
    for levels in short.into_iter().chain(more) {
        if !levels.is_empty() && !stops_rust(&levels) {
            let order = rust::reorder(&levels);
            println!("{} ; {}", spaced(&levels), spaced(&order));
        }
    }
    true
}
