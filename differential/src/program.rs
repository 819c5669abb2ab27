//! A drill program, by its standard input and output.

use std::io::{self, Read, Write};
use std::process::{Command, Stdio};
use std::thread;
use std::time::Duration;

use crate::compare::{script_difference, Difference};

/// What the program prints for a script.
pub fn run(program: &str, script: &[u8]) -> io::Result<Vec<u8>> {
    run_parts(program, &[script], Duration::ZERO)
}

/// What the program prints for a script that comes in parts, with this pause
/// before each but the first.
pub fn run_parts(program: &str, parts: &[&[u8]], pause: Duration) -> io::Result<Vec<u8>> {
    let mut child = Command::new(program).stdin(Stdio::piped()).stdout(Stdio::piped()).spawn()?;
    let mut input = child.stdin.take().ok_or(io::ErrorKind::BrokenPipe)?;
    let mut output = child.stdout.take().ok_or(io::ErrorKind::BrokenPipe)?;
    let mut answers = Vec::new();
    let written = thread::scope(|scope| {
        let writer = scope.spawn(move || {
            parts.iter().enumerate().try_for_each(|(number, part)| {
                thread::sleep(if number == 0 { Duration::ZERO } else { pause });
                input.write_all(part)
            })
        });
        let read = output.read_to_end(&mut answers);
        let written = writer.join().unwrap_or_else(|_| Err(io::ErrorKind::BrokenPipe.into()));
        read.and(written)
    });
    let status = child.wait()?;
    written?;
    if status.success() {
        Ok(answers)
    } else {
        Err(io::Error::other(format!("{program}: {status}")))
    }
}

/// This script, made as small as can be found, if the program and the baseline
/// part on it. For a program that fails, the reason stands as its answer.
pub fn difference(program: &str, script: &[u8]) -> Option<Difference> {
    script_difference(script, |script| {
        run(program, script).unwrap_or_else(|error| format!("{error}\n").into_bytes())
    })
}
