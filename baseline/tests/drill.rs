//! The drill: document 01's sixteen lines, and the form of its lines.

use baseline::drill::{self, Drill};

fn run(script: &str) -> String {
    let mut out = Vec::new();
    drill::run(script.as_bytes(), &mut out);
    String::from_utf8(out).unwrap()
}

/// The answers alone, without their counts.
fn answers(script: &str) -> Vec<String> {
    run(script).lines().map(|line| line.split_once(' ').unwrap().1.to_string()).collect()
}

const SIXTEEN: &str =
    "n 3\nw 0 65\nd 1\nd 3\nd 4\nd 5\nc 0\ns 0\nd 6\nd 7\nd 8\nd 9\nd 10\nd 12\nd 13\nd 14\n";

#[test]
fn sixteen_lines() {
    let expected: String = (1..=16)
        .map(|count| match count {
            6 => "6 settled 1 65\n".to_string(),
            16 => "16 accepted 1 65\n".to_string(),
            _ => format!("{count} ok\n"),
        })
        .collect();
    assert_eq!(run(SIXTEEN), expected);
}

#[test]
fn parts_may_end_anywhere() {
    let script = format!("d 1\n{SIXTEEN}d {}\nd 1", "1".repeat(200));
    let whole = run(&script);
    for size in [1, 2, 3, 7, 63, 64, 65] {
        let (mut drill, mut out) = (Drill::new(), Vec::new());
        script.as_bytes().chunks(size).for_each(|part| drill.feed(part, &mut out));
        drill.finish(&mut out);
        assert_eq!(String::from_utf8(out).unwrap(), whole);
    }
}

#[test]
fn nothing_gives_nothing() {
    assert_eq!(run(""), "");
}

#[test]
fn before_the_first_accepted_n() {
    let script = "w 0 1\nd 1\nn 4\nd 1\nn 3\nd 1\n";
    assert_eq!(answers(script), ["unread", "unread", "refused 1", "unread", "ok", "refused 8"]);
}

#[test]
fn a_later_n() {
    let script = "n 3\nw 0 1\nn 4\nw 0 1\nn 5\nw 0 1\nw 4 1\n";
    assert_eq!(answers(script), ["ok", "ok", "refused 1", "refused 5", "ok", "ok", "ok"]);
}

const NOT_READ: [&str; 34] = [
    "",
    " ",
    "n",
    "n ",
    "n 03",
    "n 00",
    "n 3 ",
    " n 3",
    "n  3",
    "n 3 3",
    "N 3",
    "n3",
    "n 3\r",
    "n\t3",
    "w 0",
    "w 0 ",
    "w 0 1 2",
    "w 0  1",
    "w 0 01",
    "w 00 1",
    "r",
    "r 0 0",
    "c 0 ",
    "s 0\t",
    "d -1",
    "d +1",
    "d 1\0",
    "q 0",
    "d 0x1",
    "d 18446744073709551616",
    "w 18446744073709551616 1",
    "w 0 18446744073709551616",
    "d 99999999999999999999",
    "x 1.",
];

#[test]
fn lines_that_are_not_read() {
    for line in NOT_READ {
        assert_eq!(answers(&format!("n 3\n{line}\n"))[1], "unread", "{line:?}");
    }
}

#[test]
fn an_unended_last_line() {
    assert_eq!(run("n 3\nw 0 1"), "1 ok\n2 unread\n");
    assert_eq!(run("n 3"), "1 unread\n");
    assert_eq!(run("\n"), "1 unread\n");
}

#[test]
fn numbers_are_not_cut() {
    let cases = [
        ("w 300 5", "refused 4"),
        ("w 4294967296 5", "refused 4"),
        ("w 18446744073709551615 5", "refused 4"),
        ("r 3", "refused 4"),
        ("c 256", "refused 4"),
        ("s 65536", "refused 4"),
        ("d 65537", "refused 8"),
        ("d 0", "refused 8"),
        ("d 240", "refused 8"),
        ("x 18446744073709551615", "refused 8"),
        ("n 259", "refused 1"),
        ("n 18446744073709551615", "refused 1"),
        ("w 0 18446744073709551615", "ok"),
    ];
    for (line, answer) in cases {
        assert_eq!(answers(&format!("n 3\n{line}\n"))[1], answer, "{line}");
    }
}

#[test]
fn the_largest_tag_is_printed_whole() {
    let script = "n 3\nw 0 18446744073709551615\nd 1\nd 3\nd 4\nd 5\n";
    assert_eq!(answers(script)[5], "settled 1 18446744073709551615");
}
