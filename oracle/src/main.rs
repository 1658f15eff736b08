//! Compares the library with the lifted Rust, times both, and writes samples of the Rust's answers.
//!
//! Usage: compare [quick] order | levels | points | small | lines | unicode | differences | speed
//!    or: compare sample-order | sample-levels | sample-lines | sample-unicode

mod levels;
mod library;
mod lines;
mod order;
mod points;
mod random;
mod resolve;
mod small;
mod timing;
mod unicode;

use std::env;
use std::process::ExitCode;

/// The lifted Rust, with what it leans on.
#[allow(dead_code)]
mod rust {
    include!("support.rs");
    include!(env!("LIFTED"));
    include!("rust_side.rs");
}

/// The same with the listed differences of lines corrected (see lift.rs).
#[allow(dead_code)]
mod corrected {
    include!("support.rs");
    include!(env!("CORRECTED"));
    include!("rust_side.rs");
}

/// How much is compared: everything, or a share of it for a quick try.
#[derive(Clone, Copy)]
pub enum Effort {
    Quick,
    Full,
}

impl Effort {
    /// How many of these cases are made.
    fn of(self, cases: usize) -> usize {
        match self {
            Effort::Quick => cases / 20,
            Effort::Full => cases,
        }
    }
}

fn main() -> ExitCode {
    let words: Vec<String> = env::args().skip(1).collect();
    let (effort, job) = match words.iter().map(String::as_str).collect::<Vec<_>>()[..] {
        ["quick", job] => (Effort::Quick, job),
        [job] => (Effort::Full, job),
        _ => (Effort::Full, ""),
    };
    let good = match job {
        "order" => order::compare(effort),
        "levels" => levels::compare(effort),
        "points" => points::compare(effort),
        "small" => small::compare(effort),
        "lines" => lines::compare(effort),
        "unicode" => unicode::compare(),
        "differences" => lines::show_differences(),
        "speed" => timing::compare(),
        "sample-order" => order::sample(),
        "sample-levels" => levels::sample(),
        "sample-lines" => lines::sample(),
        "sample-unicode" => unicode::sample(),
        _ => {
            eprintln!("compare: no job {job}");
            false
        }
    };
    if good { ExitCode::SUCCESS } else { ExitCode::FAILURE }
}

/// Numbers with single spaces between them.
fn spaced<T: ToString>(numbers: &[T]) -> String {
    numbers.iter().map(|n| n.to_string()).collect::<Vec<_>>().join(" ")
}

/// Every list of up to `longest` of these items, the shorter ones first.
fn lists_of<T: Clone>(items: &[T], longest: usize) -> Vec<Vec<T>> {
    let mut all = vec![Vec::new()];
    let mut from = 0;
    for _ in 0..longest {
        let to = all.len();
        for i in from..to {
            for item in items {
                let mut more = all[i].clone();
                more.push(item.clone());
                all.push(more);
            }
        }
        from = to;
    }
    all
}
