//! The drill program. No contract speaks of what a read of the operating system
//! gives: here it prints what the baseline prints, however the script comes.

use std::fs::{self, File};
use std::path::Path;
use std::process::Command;
use std::time::Duration;

use differential::compare::expected;
use differential::program::{run, run_parts};

/// The bytes that the program reads at once, and those that it prints at once.
const BLOCK: usize = 65_536;

/// Document 01's sixteen lines, a line that is refused and some that are unread.
const LINES: &[u8] = b"n 3\nw 0 65\nd 1\nd 3\nd 4\nd 5\nc 0\ns 0\nd 6\nd 7\nd 8\nd 9\nd 10\nd 12\n\
    d 13\nd 14\nd 240\nw 0 18446744073709551616\nd 1\r\n\n";

fn drill() -> &'static str {
    let program = concat!(env!("CARGO_MANIFEST_DIR"), "/../crates/drill/out/drill");
    let is_there = Path::new(program).is_file();
    assert!(is_there, "{program} is not there: run `rt run` in crates/drill");
    program
}

/// What the program prints for a script in a file of this name: each read gives
/// a whole block.
fn from_file(name: &str, script: &[u8]) -> Vec<u8> {
    let path = Path::new(env!("CARGO_TARGET_TMPDIR")).join(name);
    fs::write(&path, script).expect("a file for the script");
    let input = File::open(&path).expect("the file just written");
    let run = Command::new(drill()).stdin(input).output().expect("the program runs");
    assert!(run.status.success());
    run.stdout
}

/// The same bytes, or the first line that is another.
fn must_be(printed: &[u8], expected: &[u8]) {
    let lines = |text: &[u8]| -> Vec<String> {
        text.split(|byte| *byte == b'\n').map(|line| line.escape_ascii().to_string()).collect()
    };
    if printed != expected {
        let (one, two) = (lines(printed), lines(expected));
        let at = one.iter().zip(&two).take_while(|(one, two)| one == two).count();
        let (one, two) = (one.get(at), two.get(at));
        let lengths = (printed.len(), expected.len());
        panic!("{} bytes for {}: line {} is {one:?} for {two:?}", lengths.0, lengths.1, at + 1);
    }
}

/// Three blocks, each of which prints more than one block, and one byte more.
#[test]
fn a_script_of_many_blocks() {
    let mut script = LINES.repeat(3 * BLOCK / LINES.len());
    script.resize(3 * BLOCK, b'\n');
    script.push(b'x');
    let expected = expected(&script);
    assert!(expected.len() > 3 * BLOCK && expected.ends_with(b" unread\n"));
    must_be(&from_file("many-blocks", &script), &expected);
    must_be(&run(drill(), &script).expect("the program reads its input to the end"), &expected);
}

/// The most that a block can print: each byte is a line.
#[test]
fn empty_lines() {
    let script = [b'\n'; 70_000];
    let expected = expected(&script);
    assert_eq!(expected.len(), 898_894);
    must_be(&from_file("empty-lines", &script), &expected);
    must_be(&run(drill(), &script).expect("the program reads its input to the end"), &expected);
}

/// A read that gives little, even one byte, is not the end.
#[test]
fn a_pause_within_the_script() {
    let expected = expected(LINES);
    for first in [1, 4, LINES.len() / 2] {
        let (one, two) = LINES.split_at(first);
        let printed = run_parts(drill(), &[one, two], Duration::from_millis(300));
        must_be(&printed.expect("the program reads its input to the end"), &expected);
    }
}

/// An input or an output that fails is said on standard error, in one line.
#[test]
fn failures_are_said() {
    let directory = File::open(env!("CARGO_MANIFEST_DIR")).expect("this package's directory");
    let unreadable = Command::new(drill()).stdin(directory).output().expect("the program runs");
    assert_eq!(unreadable.stderr, b"input failed\n");
    assert!(unreadable.stdout.is_empty());
    let script = Path::new(env!("CARGO_TARGET_TMPDIR")).join("failures");
    fs::write(&script, LINES).expect("a file for the script");
    let full = File::options().write(true).open("/dev/full").expect("a device that is full");
    let input = File::open(&script).expect("the file just written");
    let unwritable =
        Command::new(drill()).stdin(input).stdout(full).output().expect("the program runs");
    assert_eq!(unwritable.stderr, b"output failed\n");
}
