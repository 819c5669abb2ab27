//! Compares the library with the baseline for as long as wished:
//! `compare SEED [ROUNDS [LINES]]`, where LINES is the length of the longest
//! scripts. `compare PROGRAM SEED [ROUNDS [LINES]]` runs the scripts through a
//! drill program instead. A difference is printed, a script as the smallest one
//! found, and ends the run with status 1.

use std::process::ExitCode;

use differential::compare::Difference;
use differential::program;
use differential::report::report;
use differential::scripts::{scripts_for, Random};
use differential::search::{Extent, Search};
use differential::SIZES;

/// One round, except for the length of its scripts.
const ROUND: Extent =
    Extent { scripts: 20, lines: 1000, stores: 5, chains: 10, offsets: 1, records: 1 };

/// A seed, the rounds, and the lines of the longest scripts.
struct Wanted {
    seed: u64,
    rounds: u64,
    lines: usize,
}

fn main() -> ExitCode {
    let words: Vec<String> = std::env::args().skip(1).collect();
    let (program, numbers) = match words.split_first() {
        Some((first, rest)) if first.parse::<u64>().is_err() => (Some(first), rest),
        _ => (None, &words[..]),
    };
    let Some(wanted) = wanted(numbers) else {
        eprintln!("usage: compare [PROGRAM] SEED [ROUNDS [LINES]]");
        return ExitCode::from(2);
    };
    match program {
        Some(program) => with_program(program, wanted),
        None => with_library(wanted),
    }
}

fn wanted(words: &[String]) -> Option<Wanted> {
    let numbers: Option<Vec<u64>> = words.iter().map(|word| word.parse().ok()).collect();
    match *numbers?.as_slice() {
        [seed] => Some(Wanted { seed, rounds: 100, lines: ROUND.lines }),
        [seed, rounds] => Some(Wanted { seed, rounds, lines: ROUND.lines }),
        [seed, rounds, lines] => Some(Wanted { seed, rounds, lines: lines.max(1) as usize }),
        _ => None,
    }
}

fn with_library(wanted: Wanted) -> ExitCode {
    let mut search = Search::new(wanted.seed);
    let extent = Extent { lines: wanted.lines, ..ROUND };
    let status = rounds(&wanted, "library", || search.round(extent));
    if status == ExitCode::SUCCESS {
        println!("\nwhat came, how often:\n\n{}", search.census);
    }
    status
}

fn with_program(program: &str, wanted: Wanted) -> ExitCode {
    let mut random = Random::new(wanted.seed);
    rounds(&wanted, "program", || {
        let sizes = SIZES.into_iter().flat_map(|n| [n; ROUND.scripts]);
        let mut scripts = sizes.flat_map(|n| scripts_for(&mut random, n, wanted.lines));
        scripts.find_map(|script| program::difference(program, &script))
    })
}

/// Rounds until one finds a difference.
fn rounds(wanted: &Wanted, two: &str, mut round: impl FnMut() -> Option<Difference>) -> ExitCode {
    let Wanted { seed, rounds, .. } = wanted;
    for number in 1..=*rounds {
        if let Some(difference) = round() {
            println!("seed {seed}, round {number}: the two part on {}", report(&difference, two));
            return ExitCode::FAILURE;
        }
        println!("seed {seed}, round {number} of {rounds}: no difference");
    }
    ExitCode::SUCCESS
}
