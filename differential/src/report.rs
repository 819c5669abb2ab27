//! Prints an input on which the two implementations part.

use std::fmt::Write;
use std::{env, fs};

use crate::compare::Difference;

/// What the baseline and a second implementation, of this name, part on: a
/// script with both answers to each line, or a store or record.
pub fn report(difference: &Difference, second: &str) -> String {
    match difference {
        Difference::Script { script, one, two } => script_report(script, one, two, second),
        Difference::Store { store, .. } => {
            let path = env::temp_dir().join("yagvost-difference.store");
            let kept = match fs::write(&path, store) {
                Ok(()) => format!("its bytes are in {}", path.display()),
                Err(error) => format!("its bytes could not be kept: {error}"),
            };
            format!("{difference} (baseline and {second}); {kept}\n")
        }
        Difference::Read { .. } | Difference::Write { .. } => format!("{difference}\n"),
    }
}

fn script_report(script: &[u8], one: &[u8], two: &[u8], second: &str) -> String {
    let lines: Vec<&[u8]> = script.split_inclusive(|byte| *byte == b'\n').collect();
    let (one, two) = (answers(one), answers(two));
    let mut text = format!("the smallest script found, {} lines:\n\n", lines.len());
    let _ = writeln!(text, "{:<24} {:<28} {second}", "line", "baseline");
    for at in 0..lines.len().max(one.len()).max(two.len()) {
        let line = lines.get(at).copied().unwrap_or_default();
        let line = line.strip_suffix(b"\n").unwrap_or(line).escape_ascii().to_string();
        let answer = |answers: &[String]| answers.get(at).cloned().unwrap_or("nothing".into());
        let (one, two) = (answer(&one), answer(&two));
        let mark = if one == two { "" } else { "  <- here" };
        let _ = writeln!(text, "{line:<24} {one:<28} {two}{mark}");
    }
    text
}

fn answers(text: &[u8]) -> Vec<String> {
    let lines = text.split_inclusive(|byte| *byte == b'\n');
    lines.map(|line| line.strip_suffix(b"\n").unwrap_or(line).escape_ascii().to_string()).collect()
}
