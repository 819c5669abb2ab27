//! Races the library against the baseline, in one process and on the same
//! inputs, and prints tables as they stand under differential/results:
//! `race [BASELINE-DRILL LIBRARY-DRILL]`. With the two drill programs it also
//! prints the time of a line end to end.

use std::fs;
use std::process::ExitCode;

use differential::scripts::settling;
use differential::timing::{end_to_end, Effort, Form, Pair, Stopwatch};
use differential::KINDS;

/// The group sizes measured, and the numbers of messages held.
const SIZES: [u8; 3] = [3, 5, 15];
const HELD: [usize; 4] = [0, 60, 120, 180];

/// The lines of a script that goes through the drill programs.
const LINES: usize = 50_000;

fn main() -> ExitCode {
    let words: Vec<String> = std::env::args().skip(1).collect();
    let programs = match words.as_slice() {
        [] => None,
        [one, two] => Some([one.as_str(), two.as_str()]),
        _ => {
            eprintln!("usage: race [BASELINE-DRILL LIBRARY-DRILL]");
            return ExitCode::from(2);
        }
    };
    let before = load();
    let measures = Measures::take(Effort::FULL);
    measures.print();
    let ended = programs.map_or(Ok(()), print_end_to_end);
    println!("Processes waiting or running: {before} before, {} after.", load());
    match ended {
        Ok(()) => ExitCode::SUCCESS,
        Err(error) => {
            eprintln!("{error}");
            ExitCode::FAILURE
        }
    }
}

/// Everything measured in the process. The lists of lines and checks go by
/// group size and then by messages held.
struct Measures {
    effort: Effort,
    lines: Vec<Vec<Pair>>,
    bare: Vec<Pair>,
    unread: Vec<Pair>,
    checks: Vec<Vec<Pair>>,
    numbers: Records,
    letters: Records,
    floor: f64,
    floor_spread: f64,
}

/// One record read and one written, by kind.
struct Records {
    reads: Vec<Pair>,
    writes: Vec<Pair>,
}

impl Records {
    fn take(watch: &mut Stopwatch, form: Form) -> Records {
        let kinds = || (1..).zip(KINDS);
        let reads = kinds().map(|(kind, name)| watch.reading(kind, name, form)).collect();
        let writes = kinds().map(|(kind, name)| watch.writing(kind, name, form)).collect();
        Records { reads, writes }
    }

    fn all(&self) -> impl Iterator<Item = &Pair> {
        self.reads.iter().chain(&self.writes)
    }
}

impl Measures {
    fn take(effort: Effort) -> Measures {
        let mut watch = Stopwatch::new(effort);
        let lines = grid(|n, held| watch.event(n, held));
        let bare = SIZES.iter().map(|n| watch.refused(*n)).collect();
        let unread = SIZES.iter().map(|n| watch.unread(*n)).collect();
        let checks = grid(|n, held| watch.check(n, held));
        let numbers = Records::take(&mut watch, Form::Numbers);
        let letters = Records::take(&mut watch, Form::Own);
        let (floor, floor_spread) = (watch.floor.best(), watch.floor.spread());
        Measures { effort, lines, bare, unread, checks, numbers, letters, floor, floor_spread }
    }

    fn print(&self) {
        let Effort { repeats, time } = self.effort;
        println!("{}\n", processor());
        println!("Each time is the best of {repeats} samples of {} ms, the two in turn; the spread is how far", time.as_millis());
        println!("the median of the samples lies above the best. A ratio is the library's time for each of the");
        println!("baseline's: 1.00 or less is at or ahead of it.\n");
        let per_second = 1e9 / self.floor;
        println!("The floor, one plain pass over 65,280 bytes: {:.0} ns, {per_second:.0} a second, spread {:.0}%.\n", self.floor, self.floor_spread);
        println!("Events (one line of a script of whole writes):\n");
        self.print_pairs(self.lines.iter().flatten());
        println!("Calls that move no message, and lines that are no call:\n");
        self.print_pairs(self.bare.iter().chain(&self.unread));
        println!("Soundness checks:\n");
        self.print_pairs(self.checks.iter().flatten());
        println!("Records of a group of 15, from bytes to numbers and back:\n");
        self.print_pairs(self.numbers.all());
        println!("The same, but the baseline reads a letter and writes one, its own form:\n");
        self.print_pairs(self.letters.all());
        self.print_growth();
        self.print_goal();
    }

    fn print_pairs<'a>(&'a self, pairs: impl Iterator<Item = &'a Pair>) {
        println!("| measure | baseline | library | ratio | baseline a second | library a second | library in floors |");
        println!("|---|---|---|---|---|---|---|");
        for pair in pairs {
            println!("{} {:.2} |", row(pair), pair.floors());
        }
        println!();
    }

    /// What a larger group and a message held add to a line and to a check.
    fn print_growth(&self) {
        println!("Growth:\n");
        println!("| measure | baseline, n 15 to n 3 | library, n 15 to n 3 | n | baseline, ns for each message held | library, ns for each message held |");
        println!("|---|---|---|---|---|---|");
        for (what, table) in [("event", &self.lines), ("soundness check", &self.checks)] {
            let across =
                |best: fn(&Pair) -> f64| best(&table[SIZES.len() - 1][0]) / best(&table[0][0]);
            for (n, row) in SIZES.iter().zip(table) {
                let (none, most) = (&row[0], &row[HELD.len() - 1]);
                let held = HELD[HELD.len() - 1] as f64;
                let each = |best: fn(&Pair) -> f64| (best(most) - best(none)) / held;
                println!(
                    "| {what} | {:.2} | {:.2} | {n} | {:.1} | {:.1} |",
                    across(baseline),
                    across(library),
                    each(baseline),
                    each(library)
                );
            }
        }
        println!();
    }

    /// A call is to stay within 1.5 floors and what its messages cost: each
    /// message delivered is read once and was written once.
    fn print_goal(&self) {
        println!("The goal for a call, 1.5 floors and what its messages cost:\n");
        println!("| n | messages for each line | they cost | goal | baseline | library | library to goal |");
        println!("|---|---|---|---|---|---|---|");
        for (n, row) in SIZES.iter().zip(&self.lines) {
            let script = settling(*n, 0, 3000);
            let lines: Vec<&[u8]> = script.split_inclusive(|byte| *byte == b'\n').collect();
            let delivered = lines.iter().filter(|line| line.starts_with(b"d")).count();
            let messages = delivered as f64 / lines.len() as f64;
            let cost =
                messages * (mean(&self.numbers.reads[..4]) + mean(&self.numbers.writes[..4]));
            let goal = 1.5 * row[0].floor.best() + cost;
            let (one, two) = (baseline(&row[0]), library(&row[0]));
            println!(
                "| {n} | {messages:.2} | {cost:.0} ns | {goal:.0} ns | {one:.0} ns | {two:.0} ns | {:.2} |",
                two / goal
            );
        }
        println!();
    }
}

fn baseline(pair: &Pair) -> f64 {
    pair.baseline.best()
}

fn library(pair: &Pair) -> f64 {
    pair.library.best()
}

/// The library's mean time.
fn mean(pairs: &[Pair]) -> f64 {
    pairs.iter().map(library).sum::<f64>() / pairs.len() as f64
}

fn grid(mut time: impl FnMut(u8, usize) -> Pair) -> Vec<Vec<Pair>> {
    SIZES.iter().map(|n| HELD.iter().map(|held| time(*n, *held)).collect()).collect()
}

/// A pair's row of a table, but for its last columns.
fn row(pair: &Pair) -> String {
    let (one, two) = (baseline(pair), library(pair));
    format!(
        "| {} | {one:.1} ns +{:.0}% | {two:.1} ns +{:.0}% | {:.2} | {:.0} | {:.0} |",
        pair.what,
        pair.baseline.spread(),
        pair.library.spread(),
        pair.ratio(),
        1e9 / one,
        1e9 / two
    )
}

fn print_end_to_end(programs: [&str; 2]) -> std::io::Result<()> {
    println!("End to end, {LINES} lines through each drill program:\n");
    println!("| measure | baseline | library | ratio | baseline a second | library a second |");
    println!("|---|---|---|---|---|---|");
    for n in SIZES {
        println!("{}", row(&end_to_end(programs, n, LINES)?));
    }
    println!();
    Ok(())
}

/// The processor's name and how many there are, where the system tells.
fn processor() -> String {
    let text = fs::read_to_string("/proc/cpuinfo").unwrap_or_default();
    let names: Vec<&str> = text
        .lines()
        .filter(|line| line.starts_with("model name"))
        .filter_map(|line| line.split_once(": ").map(|(_, name)| name))
        .collect();
    match names.first() {
        Some(name) => format!("Processor: {name}, {} of them.", names.len()),
        None => "Processor: unknown.".to_string(),
    }
}

/// The average number of processes that ran or waited in the last minute.
fn load() -> String {
    let text = fs::read_to_string("/proc/loadavg").unwrap_or_default();
    text.split(' ').next().unwrap_or("unknown").to_string()
}
