//! Points: each operation of the measure beside the Rust's, bit for bit.

use crate::Effort;
use crate::library;
use crate::random::Random;

const EDGES: [f32; 16] = [
    0.0,
    -0.0,
    f32::MIN_POSITIVE,
    f32::from_bits(1),
    f32::from_bits(2),
    f32::from_bits(3),
    f32::from_bits(0x007f_ffff),
    1.0,
    0.5,
    64.0,
    4096.0,
    262_144.0,
    16_777_216.0,
    f32::MAX,
    f32::INFINITY,
    33.333,
];
const RANDOM_PAIRS: usize = 2_000_000;

/// The Rust's own operations, as `layout_line` and what it calls write them.
mod rust {
    pub fn width(size: f32, own: Option<f32>, advance: f32) -> f32 {
        own.map_or(size, |x| x) * advance
    }
    pub fn difference(a: f32, b: f32) -> f32 {
        (a - b).max(0.0)
    }
}

/// Bits, with one form for every NaN: which one an operation gives is left open by IEEE 754.
fn bits(x: f32) -> u32 {
    if x.is_nan() { f32::NAN.to_bits() } else { x.to_bits() }
}

fn agrees(a: f32, b: f32) -> bool {
    bits(library::sum(a, b)) == bits(a + b)
        && library::over(a, b) == (a > b)
        && bits(library::difference(a, b)) == bits(rust::difference(a, b))
        && bits(library::half(a)) == bits(a / 2.0)
        && library::lawful(a) == (a.is_finite() && a >= 0.0)
}

/// Widths at a size and an advance that are in range, with and without a size of the glyph's own.
fn widths_agree(size: f32, own: f32, advance: f32) -> bool {
    let granted = (0.0..=4096.0).contains(&size);
    [None, Some(own)].iter().all(|&own| {
        let expected = granted.then(|| rust::width(size, own, advance).to_bits());
        library::width(size, own, advance).map(|width| width.to_bits()) == expected
    })
}

fn any_float(random: &mut Random) -> f32 {
    match random.below(4) {
        0 => random.one_of(&EDGES),
        1 => f32::from_bits(random.next() as u32),
        2 => (random.next() % 400_000) as f32 / 97.0,
        _ => random.below(8192) as f32 / 2.0,
    }
}

pub fn compare(effort: Effort) -> bool {
    let mut random = Random(7);
    let mut pairs: Vec<(f32, f32)> = EDGES.iter().flat_map(|&a| EDGES.iter().map(move |&b| (a, b))).collect();
    pairs.extend((0..effort.of(RANDOM_PAIRS)).map(|_| (any_float(&mut random), any_float(&mut random))));
    for &(a, b) in &pairs {
        let in_range = |x: f32, most: f32| if (0.0..=most).contains(&x) { x } else { most };
        let own = in_range(any_float(&mut random), 4096.0);
        if !agrees(a, b) || !widths_agree(a, own, in_range(b, 64.0)) {
            println!("points: differs on {a:e} ({:08x}) and {b:e} ({:08x})", a.to_bits(), b.to_bits());
            return false;
        }
    }
    println!("points: {} pairs compared in width, sum, over, difference, half and lawful; no difference", pairs.len());
    true
}
