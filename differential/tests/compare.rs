//! The comparison finds no difference where there is none, and finds planted
//! ones.

use baseline::layout::{Letter, Message};
use baseline::store::is_sound_for;
use differential::compare::Difference;
use differential::contender::{Baseline, Contender};
use differential::scripts::{settling, store_with};
use differential::search::{Extent, Search};

/// The baseline with one planted fault.
#[derive(Clone, Copy, PartialEq, Eq)]
enum Planted {
    /// Answers 10 where 11 is due.
    Answer,
    /// Does not look at the last byte of the store.
    LastByte,
    /// Takes a Fetch with a stray attempt.
    StrayAttempt,
    /// Leaves the last byte of a record as it was.
    Unwritten,
}

impl Contender for Planted {
    fn run_script(&mut self, script: &[u8], out: &mut Vec<u8>) {
        let mut answers = Vec::new();
        Baseline.run_script(script, &mut answers);
        let text = String::from_utf8(answers).unwrap();
        let wrong =
            if *self == Planted::Answer { text.replace("refused 11", "refused 10") } else { text };
        out.extend_from_slice(wrong.as_bytes());
    }

    fn is_sound(&mut self, store: &[u8], n: u8) -> bool {
        let mut seen = store.to_vec();
        if *self == Planted::LastByte {
            seen.iter_mut().last().into_iter().for_each(|byte| *byte = 0);
        }
        Baseline.is_sound(&seen, n)
    }

    fn read_record(&mut self, record: &[u8], n: u8) -> Option<Letter> {
        let mut seen = record.to_vec();
        if *self == Planted::StrayAttempt && seen[2] == 5 {
            seen[12..16].fill(0);
        }
        Baseline.read_record(&seen, n)
    }

    fn write_record(&mut self, bytes: &mut [u8], letter: &Letter, n: u8) -> bool {
        let last = bytes[bytes.len() - 1];
        let wrote = Baseline.write_record(bytes, letter, n);
        if *self == Planted::Unwritten {
            *bytes.last_mut().unwrap() = last;
        }
        wrote
    }
}

const EXTENT: Extent =
    Extent { scripts: 8, lines: 300, stores: 2, chains: 2, offsets: 1, records: 1 };

fn compare(two: impl Contender + 'static) -> Option<Difference> {
    Search::against(two, 3).round(EXTENT)
}

#[test]
fn no_difference_from_itself() {
    assert_eq!(compare(Baseline), None);
}

#[test]
fn planted_faults_are_found() {
    let Some(Difference::Script { script, two, .. }) = compare(Planted::Answer) else { panic!() };
    let lines = script.split(|byte| *byte == b'\n').count();
    assert!(two.ends_with(b"refused 10\n") && lines < 25, "{}", script.escape_ascii());
    assert!(matches!(compare(Planted::LastByte), Some(Difference::Store { .. })));
    assert!(matches!(compare(Planted::StrayAttempt), Some(Difference::Read { .. })));
    assert!(matches!(compare(Planted::Unwritten), Some(Difference::Write { .. })));
}

#[test]
fn scripts_and_stores_for_measuring() {
    for n in [3, 5, 15] {
        for held in [0, 60, 180, 239] {
            assert!(is_sound_for(&store_with(n, held), n));
        }
        let mut out = Vec::new();
        Baseline.run_script(&settling(n, 120, 500), &mut out);
        let answers = String::from_utf8(out).unwrap();
        assert!(
            answers.contains("settled")
                && !answers.contains("unread")
                && !answers.contains("refused 7")
        );
    }
}

#[test]
fn all_kinds_are_read_as_written() {
    let letter = Letter {
        sender: 1,
        addressee: 0,
        incarnation: Default::default(),
        message: Message::Fetch,
    };
    let mut record = [1; 272];
    assert!(Baseline.write_record(&mut record, &letter, 3));
    assert_eq!(Baseline.read_record(&record, 3), Some(letter));
}
