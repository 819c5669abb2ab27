//! Times the two implementations in turn, so that what slows the machine for a
//! while slows both.

use std::hint::black_box;
use std::io;
use std::time::{Duration, Instant};

use baseline::layout::{self, or_of_words, RECORD_BYTES};
use baseline::store::STORE_BYTES;

use yagvost::Record;

use crate::contender::{Baseline, Contender};
use crate::linked::{letter, record, Linked};
use crate::program;
use crate::scripts::{self, Random};

/// How often each measure is taken, and for how long.
#[derive(Clone, Copy, Debug)]
pub struct Effort {
    pub repeats: usize,
    pub time: Duration,
}

impl Effort {
    pub const FULL: Effort = Effort { repeats: 25, time: Duration::from_millis(20) };
}

/// The times of one step, in nanoseconds, one for each repeat.
#[derive(Clone, Debug, Default)]
pub struct Samples(Vec<f64>);

impl Samples {
    pub fn add(&mut self, nanoseconds: f64) {
        self.0.push(nanoseconds);
    }

    pub fn extend(&mut self, others: &Samples) {
        self.0.extend(&others.0);
    }

    /// The fastest, since anything else on the machine only slows it.
    pub fn best(&self) -> f64 {
        self.0.iter().copied().fold(f64::INFINITY, f64::min)
    }

    /// How far the median lies above the best, in percent.
    pub fn spread(&self) -> f64 {
        let mut sorted = self.0.clone();
        sorted.sort_by(f64::total_cmp);
        let median = sorted.get(sorted.len() / 2).copied().unwrap_or(f64::NAN);
        100.0 * (median / self.best() - 1.0)
    }
}

/// One measure of both, and the floor beside them.
#[derive(Clone, Debug, Default)]
pub struct Pair {
    pub what: String,
    pub baseline: Samples,
    pub library: Samples,
    /// One plain pass over a store's bytes, timed as long as the two and in
    /// turn with them: the processor's own speed changes within a run.
    pub floor: Samples,
}

impl Pair {
    /// The library's time for each of the baseline's: at most 1 if it is at
    /// or ahead.
    pub fn ratio(&self) -> f64 {
        self.library.best() / self.baseline.best()
    }

    /// The library's time in floors of the same measure.
    pub fn floors(&self) -> f64 {
        self.library.best() / self.floor.best()
    }
}

/// What the baseline reads a record into and writes it from: a letter, which is
/// its own form, or the numbers that the library gives and takes.
#[derive(Clone, Copy, Debug, PartialEq, Eq)]
pub enum Form {
    Own,
    Numbers,
}

impl Form {
    fn words(self) -> &'static str {
        match self {
            Form::Own => ", the baseline as a letter",
            Form::Numbers => " as numbers",
        }
    }
}

/// Times both, and the floor beside them.
pub struct Stopwatch {
    effort: Effort,
    /// The floors of all measures.
    pub floor: Samples,
}

impl Stopwatch {
    pub fn new(effort: Effort) -> Stopwatch {
        Stopwatch { effort, floor: Samples::default() }
    }

    /// One line of a script of whole writes, in the process.
    pub fn event(&mut self, n: u8, held: usize) -> Pair {
        let what = format!("event, n {n}, {held} messages held");
        self.line(what, scripts::settling(n, held, 3000))
    }

    /// One call that moves no message: a Drop of record 0, which is refused
    /// once store and table have been checked.
    pub fn refused(&mut self, n: u8) -> Pair {
        self.line(format!("refused call, n {n}"), repeated(n, "x 0\n"))
    }

    /// One line that is no call: it is read, and answered with `unread`.
    pub fn unread(&mut self, n: u8) -> Pair {
        self.line(format!("line that is no call, n {n}"), repeated(n, "x\n"))
    }

    /// One line of a script, in the process.
    fn line(&mut self, what: String, script: Vec<u8>) -> Pair {
        let lines = script.iter().filter(|byte| **byte == b'\n').count();
        let (mut linked, mut out) = (Linked::default(), Vec::new());
        let mut run = |contender: &mut dyn Contender| {
            out.clear();
            contender.run_script(black_box(&script), &mut out);
        };
        self.time(what, lines, |is_library| match is_library {
            false => run(&mut Baseline),
            true => run(&mut linked),
        })
    }

    /// One soundness check of a store with so many messages.
    pub fn check(&mut self, n: u8, held: usize) -> Pair {
        let store = scripts::store_with(n, held);
        let what = format!("soundness check, n {n}, {held} messages held");
        self.time(what, 1, |is_library| {
            let sound = match is_library {
                false => Baseline.is_sound(black_box(&store), n),
                true => Linked::default().is_sound(black_box(&store), n),
            };
            assert!(sound);
        })
    }

    /// One record of this kind, 1 to 6, read. The library gives numbers.
    pub fn reading(&mut self, kind: u8, name: &str, form: Form) -> Pair {
        let mut random = Random::new(kind.into());
        let records: Vec<_> = (0..64).map(|_| scripts::record(&mut random, kind, 15)).collect();
        let (mut theirs, mut ours) = (Record::default(), Record::default());
        let mut library = |bytes: &[u8]| {
            assert!(yagvost::read_record_into(bytes, 0, 15, black_box(&mut ours)));
        };
        let what = format!("read {name}{}", form.words());
        match form {
            Form::Own => self.time(what, records.len(), |is_library| {
                for bytes in &records {
                    match is_library {
                        false => {
                            assert!(black_box(layout::read_record(black_box(bytes), 15)).is_ok())
                        }
                        true => library(black_box(bytes)),
                    }
                }
            }),
            Form::Numbers => self.time(what, records.len(), |is_library| {
                for bytes in &records {
                    match is_library {
                        false => assert!(read_numbers(black_box(bytes), black_box(&mut theirs))),
                        true => library(black_box(bytes)),
                    }
                }
            }),
        }
    }

    /// One record of this kind, 1 to 6, written. The library takes numbers.
    pub fn writing(&mut self, kind: u8, name: &str, form: Form) -> Pair {
        let mut random = Random::new(kind.into());
        let letters: Vec<_> = (0..64).map(|_| scripts::letter(&mut random, kind, 15)).collect();
        let numbers: Vec<_> = letters.iter().map(record).collect();
        let mut bytes = [0; RECORD_BYTES];
        let what = format!("write {name}{}", form.words());
        match form {
            Form::Own => self.time(what, letters.len(), |is_library| {
                for (letter, numbers) in letters.iter().zip(&numbers) {
                    let to = black_box(&mut bytes[..]);
                    assert!(match is_library {
                        false => layout::write_record(to, black_box(letter), 15).is_ok(),
                        true => yagvost::write_record(to, 0, 15, black_box(numbers)),
                    });
                }
            }),
            Form::Numbers => self.time(what, letters.len(), |is_library| {
                for numbers in &numbers {
                    let to = black_box(&mut bytes[..]);
                    assert!(match is_library {
                        false => write_numbers(to, black_box(numbers)),
                        true => yagvost::write_record(to, 0, 15, black_box(numbers)),
                    });
                }
            }),
        }
    }

    /// Both in turn, after a round each that does not count. A round has so
    /// many steps, and is told whether it is the library's.
    fn time(&mut self, what: String, steps: usize, mut round: impl FnMut(bool)) -> Pair {
        let mut pair = Pair { what, ..Pair::default() };
        let store = vec![0; STORE_BYTES];
        let Effort { repeats, time } = self.effort;
        round(false);
        round(true);
        for _ in 0..repeats {
            pair.baseline.add(sample(time, steps, || round(false)));
            pair.library.add(sample(time, steps, || round(true)));
            pair.floor.add(sample(time, 1, || {
                black_box(or_of_words(black_box(&store)));
            }));
        }
        self.floor.extend(&pair.floor);
        pair
    }
}

/// A script that sets up a group and then has 3,000 times the same line.
fn repeated(n: u8, line: &str) -> Vec<u8> {
    let mut script = format!("n {n}\n").into_bytes();
    script.extend(line.repeat(3000).bytes());
    script
}

/// The baseline's letter in a record as the library's numbers.
#[inline(never)]
fn read_numbers(bytes: &[u8; RECORD_BYTES], numbers: &mut Record) -> bool {
    let Ok(letter) = layout::read_record(bytes, 15) else {
        return false;
    };
    *numbers = record(&letter);
    true
}

/// The library's numbers written as a record by the baseline, refused where
/// the library refuses them.
#[inline(never)]
fn write_numbers(to: &mut [u8], numbers: &Record) -> bool {
    unused_are_zero(numbers)
        && letter(numbers).is_some_and(|letter| layout::write_record(to, &letter, 15).is_ok())
}

/// Is every number zero that a message of this kind has no use for, in a group
/// of 15?
fn unused_are_zero(numbers: &Record) -> bool {
    let rows = numbers.rows.iter().fold(0, |all, row| all | row.index | row.tag);
    let write = numbers.attempt | numbers.item.index | numbers.item.tag;
    match numbers.kind {
        1 => numbers.other | rows == 0,
        2..=4 => rows == 0,
        5 => numbers.other | write | rows == 0,
        6 => write == 0,
        _ => false,
    }
}

/// The time of one step: rounds are run until this much time has passed, at
/// least one.
fn sample(time: Duration, steps: usize, mut round: impl FnMut()) -> f64 {
    let (start, mut rounds) = (Instant::now(), 0u32);
    while rounds == 0 || start.elapsed() < time {
        round();
        rounds += 1;
    }
    start.elapsed().as_nanos() as f64 / (f64::from(rounds) * steps as f64)
}

/// One line of a long script through two drill programs, in turn.
pub fn end_to_end(programs: [&str; 2], n: u8, lines: usize) -> io::Result<Pair> {
    let script = scripts::settling(n, 0, lines);
    let lines = script.iter().filter(|byte| **byte == b'\n').count();
    let mut pair = Pair { what: format!("line through the program, n {n}"), ..Pair::default() };
    let run = |name: &str| {
        let start = Instant::now();
        let answers = program::run(name, &script)?;
        Ok::<_, io::Error>((start.elapsed().as_nanos() as f64 / lines as f64, answers))
    };
    for _ in 0..9 {
        let (one, first) = run(programs[0])?;
        let (two, second) = run(programs[1])?;
        if first != second {
            return Err(io::Error::other(format!("the programs part on a script for n {n}")));
        }
        pair.baseline.add(one);
        pair.library.add(two);
    }
    Ok(pair)
}
