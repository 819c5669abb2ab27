//! The library and the baseline agree, with a fixed seed: on scripts of every
//! group size, on stores sound and damaged, on records sound and damaged. Each
//! test also counts what it reached, and fails if something never came.

use differential::census::reachable;
use differential::compare::Difference;
use differential::report::report;
use differential::scripts::{script_for, Random};
use differential::search::Search;
use differential::{KINDS, SIZES};

fn must_agree(found: Option<Difference>) {
    if let Some(difference) = found {
        panic!("the two part on {}", report(&difference, "library"));
    }
}

fn must_have_come(search: &Search, expected: &[String]) {
    println!("{}", search.census);
    let missing = search.census.missing(expected);
    assert!(missing.is_empty(), "never came: {missing:?}");
}

fn both_verdicts(what: &str, verdicts: [&str; 2]) -> [String; 2] {
    verdicts.map(|verdict| format!("{what}: {verdict}"))
}

/// Scripts that crash, restart, retry, lose, repeat and delay at every place.
#[test]
fn scripts_of_every_size() {
    let mut search = Search::new(1);
    for n in SIZES {
        must_agree(search.scripts(n, 60, 600));
    }
    must_have_come(&search, &reachable());
}

#[test]
fn each_size_settles_and_returns() {
    for n in SIZES {
        let mut search = Search::new(2);
        must_agree(search.scripts(n, 15, 400));
        must_have_come(&search, &["settled", "accepted"].map(String::from));
    }
}

#[test]
fn short_scripts() {
    let mut search = Search::new(3);
    for n in SIZES {
        for length in 1..200 {
            let script = script_for(&mut Random::new(length), n, 1 + length as usize / 10);
            must_agree(search.script(&script));
        }
    }
    must_agree(search.script(b""));
    must_agree(search.script(b"\n"));
    must_agree(search.script(b"n 3"));
}

#[test]
fn stores_left_by_scripts_and_damaged() {
    let mut search = Search::new(4);
    for n in SIZES {
        must_agree(search.stores(n, 50));
    }
    must_have_come(&search, &both_verdicts("damaged store", ["sound", "unsound"]));
    must_have_come(&search, &["store as a script left it: sound".into()]);
}

#[test]
fn stores_with_random_chains() {
    let mut search = Search::new(5);
    for n in SIZES {
        must_agree(search.chains(n, 300));
    }
    must_have_come(&search, &["store with random chains: sound".into()]);
    must_have_come(&search, &both_verdicts("store linked anew", ["sound", "unsound"]));
}

#[test]
fn stores_damaged_at_every_offset() {
    let mut search = Search::new(6);
    for n in SIZES {
        must_agree(search.offsets(n));
    }
    must_have_come(&search, &both_verdicts("store damaged in one byte", ["sound", "unsound"]));
}

#[test]
fn records_of_every_kind_damaged_in_every_byte() {
    let mut search = Search::new(7);
    must_agree(search.records(10));
    for kind in KINDS {
        let what = format!("{kind} damaged in one byte");
        must_have_come(&search, &both_verdicts(&what, ["read", "fault"]));
    }
}
