//! Prints a script of random but likely calls: `scripts SEED [LINES]`.
//! The same seed and length give the same script.

use std::io::{self, Write};
use std::process::ExitCode;

use differential::scripts::{script, Random};

fn main() -> ExitCode {
    let numbers: Option<Vec<u64>> =
        std::env::args().skip(1).map(|word| word.parse().ok()).collect();
    let (seed, lines) = match numbers.as_deref() {
        Some([seed]) => (*seed, 1000),
        Some([seed, lines]) => (*seed, *lines),
        _ => {
            eprintln!("usage: scripts SEED [LINES]");
            return ExitCode::from(2);
        }
    };
    let script = script(&mut Random::new(seed), lines as usize);
    match io::stdout().write_all(&script) {
        Ok(()) => ExitCode::SUCCESS,
        Err(_) => ExitCode::FAILURE,
    }
}
