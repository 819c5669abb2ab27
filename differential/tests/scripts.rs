//! What is generated, run by the baseline alone: scripts are the same for the
//! same seed and rich in what they reach, every state that they leave is sound,
//! stores and records are sound until they are damaged.

use baseline::drill::{self, Drill, Line};
use baseline::group::{is_sound_table, Call};
use baseline::layout::{read_record, RECORD_BYTES};
use baseline::store::{is_sound, is_sound_for};
use differential::scripts::{self, script, script_for, Random};
use differential::smallest::smallest;
use differential::SIZES;

fn run(script: &[u8]) -> String {
    let mut out = Vec::new();
    drill::run(script, &mut out);
    String::from_utf8(out).unwrap()
}

#[test]
fn a_seed_gives_one_script() {
    assert_eq!(script(&mut Random::new(4), 300), script(&mut Random::new(4), 300));
    assert_ne!(script(&mut Random::new(4), 300), script(&mut Random::new(5), 300));
}

#[test]
fn every_answer_comes_up() {
    let mut random = Random::new(1);
    let answers: String = (0..150).map(|_| run(&script(&mut random, 400))).collect();
    let words = ["ok", "settled", "accepted", "stopped", "unread"].map(str::to_string);
    let refusals = [1, 4, 5, 7, 8, 9, 10, 11, 12, 13].map(|number| format!("refused {number}"));
    for word in words.into_iter().chain(refusals) {
        let count = answers
            .lines()
            .filter(|line| line.split_once(' ').unwrap().1.starts_with(&word))
            .count();
        assert!(count > 10, "{word}: {count}");
    }
}

#[test]
fn every_size_settles_and_accepts() {
    for n in SIZES {
        let mut random = Random::new(n.into());
        let answers: String = (0..40).map(|_| run(&script_for(&mut random, n, 400))).collect();
        assert!(answers.contains("settled") && answers.contains("accepted"), "n {n}");
    }
}

#[test]
fn refusals_change_nothing_and_states_stay_sound() {
    let mut random = Random::new(2);
    for _ in 0..30 {
        let (mut drill, mut out) = (Drill::new(), Vec::new());
        let script = script(&mut random, 200);
        for line in script.split_inclusive(|byte| *byte == b'\n') {
            let before = (drill.state().0.to_vec(), drill.state().1.to_vec());
            out.clear();
            drill.feed(line, &mut out);
            let (nodes, store) = drill.state();
            let answer = String::from_utf8_lossy(&out);
            if answer.contains("refused") || answer.contains("unread") {
                assert!(before == (nodes.to_vec(), store.to_vec()));
            }
            assert!(nodes.is_empty() || is_sound_for(store, nodes.len() as u8));
            assert!(nodes.is_empty() || is_sound_table(nodes, nodes.len() as u8));
        }
    }
}

#[test]
fn the_smallest_script_is_found() {
    let script = script(&mut Random::new(9), 500);
    let is_crash =
        |line: &[u8]| matches!(drill::parse(line), Some(Line::Call(Call::Crash { node: 0 })));
    let crashes =
        |script: &[u8]| script.split(|byte| *byte == b'\n').filter(|line| is_crash(line)).count();
    let long = [script, b"c 0\nd 1\nc 0\n".to_vec()].concat();
    assert_eq!(smallest(&long, |script| crashes(script) >= 2), b"c 0\nc 0\n");
}

#[test]
fn generated_stores_are_sound_until_damaged() {
    let mut random = Random::new(5);
    let mut unsound = 0;
    for round in 0..200 {
        let (n, mut bytes) = scripts::store(&mut random, 30 + round);
        assert!(is_sound_for(&bytes, n));
        scripts::damage_store(&mut random, &mut bytes);
        unsound += usize::from(!is_sound(&bytes));
    }
    assert!((100..200).contains(&unsound), "{unsound}");
}

/// The bytes a kind uses besides next, kind and the two ends.
fn is_used(kind: u8, n: usize, at: usize) -> bool {
    match at {
        0..=7 => true,
        8..=11 => !matches!(kind, 1 | 5),
        12..=31 => kind < 5,
        _ => kind == 6 && at < 32 + 16 * n,
    }
}

#[test]
fn every_byte_of_every_kind() {
    let mut random = Random::new(1);
    for n in SIZES {
        for kind in 1..=6 {
            let record = scripts::record(&mut random, kind, n);
            assert!(read_record(&record, n).is_ok());
            for at in (0..RECORD_BYTES).filter(|at| *at != 2) {
                let mut damaged = record;
                damaged[at] ^= 1 << random.below(8);
                let read = read_record(&damaged, n);
                assert_eq!(
                    read.is_ok(),
                    is_used(kind, n.into(), at),
                    "kind {kind} n {n} byte {at}"
                );
            }
        }
    }
}
