//! Counts what inputs reach, so that a comparison that reaches too little is
//! noticed.

use std::collections::BTreeMap;
use std::fmt;

use baseline::drill::{self, Drill, Line};
use baseline::group::Call;
use baseline::layout::RECORD_BYTES;
use baseline::node::Phase;
use baseline::store::RECORDS;
use baseline::MAX_NODES;

use crate::KINDS;

/// How often each thing came.
#[derive(Clone, Debug, Default)]
pub struct Census {
    counts: BTreeMap<String, u64>,
}

impl Census {
    pub fn note(&mut self, what: String) {
        *self.counts.entry(what).or_default() += 1;
    }

    pub fn count(&self, what: &str) -> u64 {
        self.counts.get(what).copied().unwrap_or_default()
    }

    /// Those of the things expected that never came.
    pub fn missing(&self, expected: &[String]) -> Vec<String> {
        expected.iter().filter(|what| self.count(what) == 0).cloned().collect()
    }

    /// Count what each line of a script does, as the baseline runs it.
    pub fn script(&mut self, script: &[u8]) {
        let mut course = Course::new();
        for line in script.split_inclusive(|byte| *byte == b'\n') {
            let call = line.strip_suffix(b"\n").and_then(drill::parse);
            let before = course.what_happens_to(call);
            let answer = course.run(line);
            let word = kind_of(&answer);
            if let Some((what, at)) = before {
                match word.strip_prefix("refused ") {
                    Some(number) => self.note(format!("{what} refused {number}")),
                    None => self.note(format!("{what} at {at}")),
                }
            }
            if let Some(fate) = course.fates(call, word != "refused 8") {
                self.note(fate);
            }
            for change in course.changed_marks() {
                self.note(change.into());
            }
            self.note(word);
        }
    }
}

impl fmt::Display for Census {
    fn fmt(&self, to: &mut fmt::Formatter) -> fmt::Result {
        self.counts.iter().try_for_each(|(what, count)| writeln!(to, "{count:12}  {what}"))
    }
}

/// All answers, and all refusals by call and kind of message, that a drill can
/// reach; each call in each stage; each kind of message lost, repeated and
/// delayed; rows marked, and marks taken away by a greater index.
pub fn reachable() -> Vec<String> {
    let answers = ["ok", "settled", "accepted", "stopped", "unread"].map(String::from);
    let refusals: [(&str, &[u8]); 12] = [
        ("set up", &[1]),
        ("write", &[4, 5, 7]),
        ("retry", &[4, 5, 7]),
        ("crash", &[4, 5]),
        ("start", &[4, 5, 7]),
        ("drop", &[8]),
        ("Store", &[7, 9, 10, 12, 13]),
        ("Stored", &[7, 9, 10, 11]),
        ("Confirm", &[7, 9, 10]),
        ("Confirmed", &[9, 10, 11]),
        ("Fetch", &[7, 9]),
        ("Table", &[7, 9, 10, 11]),
    ];
    let refused = refusals.iter().flat_map(|(what, numbers)| {
        numbers.iter().map(move |number| format!("{what} refused {number}"))
    });
    let fates = ["lost", "repeated", "delayed"]
        .into_iter()
        .flat_map(|fate| KINDS.iter().map(move |kind| format!("{fate} {kind}")));
    let rest = ["no message refused 8", "mark set", "mark taken away"].map(String::from);
    answers.into_iter().chain(refused).chain(stages()).chain(fates).chain(rest).collect()
}

/// Each call and each delivery that acts, with the stages in which it may.
fn stages() -> Vec<String> {
    const UP: [&str; 3] = ["Up(Idle)", "Up(Storing)", "Up(Confirming)"];
    const BUSY: [&str; 5] = [
        "Fetching",
        "Returning(Storing)",
        "Returning(Confirming)",
        "Up(Storing)",
        "Up(Confirming)",
    ];
    let acting: [(&str, &[&str]); 10] = [
        ("write", &["Up(Idle)"]),
        ("retry", &BUSY),
        ("crash", &BUSY),
        ("crash", &["Up(Idle)"]),
        ("start", &["Down"]),
        ("Store", &UP),
        ("Stored", &["Up(Storing)", "Returning(Storing)"]),
        ("Confirm", &UP),
        ("Confirmed", &["Up(Confirming)", "Returning(Confirming)"]),
        ("Table", &["Fetching"]),
    ];
    let fetch = UP.iter().map(|stage| format!("Fetch at {stage}"));
    acting
        .iter()
        .flat_map(|(what, stages)| stages.iter().map(move |stage| format!("{what} at {stage}")))
        .chain(fetch)
        .collect()
}

/// An answer without its count, and a refusal with its number; of the other
/// answers the first word.
fn kind_of(answer: &str) -> String {
    let words: Vec<&str> = answer.split_ascii_whitespace().skip(1).collect();
    match words.as_slice() {
        ["refused", number] => format!("refused {number}"),
        [word, ..] => word.to_string(),
        [] => "nothing".to_string(),
    }
}

/// What is known of a message in the store.
#[derive(Clone, Copy)]
struct Held {
    kind: &'static str,
    /// The line that sent it.
    sent: u64,
    delivered: bool,
}

/// A script under way, with the messages that its store holds.
struct Course {
    drill: Drill,
    held: [Option<Held>; RECORDS],
    lines: u64,
    /// The line that sent the newest message delivered so far.
    newest: u64,
    /// The marks of each node after the line before.
    marks: [u16; MAX_NODES],
}

impl Course {
    fn new() -> Course {
        let (held, marks) = ([None; RECORDS], [0; MAX_NODES]);
        Course { drill: Drill::new(), held, lines: 0, newest: 0, marks }
    }

    /// The call, or the kind of the message delivered, and the stage of the
    /// node it is about.
    fn what_happens_to(&self, line: Option<Line>) -> Option<(&'static str, String)> {
        let (nodes, store) = self.drill.state();
        let stage = |node: u64| {
            let node = usize::try_from(node).ok().and_then(|node| nodes.get(node));
            node.map_or("no node".to_string(), |node| format!("{:?}", node.phase))
        };
        if nodes.is_empty() && !matches!(line, Some(Line::SetUp(_))) {
            return None;
        }
        Some(match line? {
            Line::SetUp(n) => ("set up", n.to_string()),
            Line::Call(Call::Write { node, .. }) => ("write", stage(node)),
            Line::Call(Call::Retry { node }) => ("retry", stage(node)),
            Line::Call(Call::Crash { node }) => ("crash", stage(node)),
            Line::Call(Call::Start { node }) => ("start", stage(node)),
            Line::Call(Call::Drop { .. }) => ("drop", "any stage".to_string()),
            Line::Call(Call::Deliver { record }) => match self.message(record) {
                Some((at, held)) => (held.kind, stage((store[at * RECORD_BYTES + 3] & 15).into())),
                None => ("no message", String::new()),
            },
        })
    }

    fn message(&self, record: u64) -> Option<(usize, Held)> {
        let at = usize::try_from(record).ok()?;
        Some((at, (*self.held.get(at)?)?))
    }

    /// Run a line; its answer.
    fn run(&mut self, line: &[u8]) -> String {
        let mut answer = Vec::new();
        self.lines += 1;
        self.drill.feed(line, &mut answer);
        if !line.ends_with(b"\n") {
            self.drill.finish(&mut answer);
        }
        let answer = String::from_utf8_lossy(&answer).into_owned();
        if line.starts_with(b"n") && answer.ends_with("ok\n") {
            self.held = [None; RECORDS];
        }
        answer
    }

    /// What became of the message that a line names, if it names one; then
    /// look which messages the store holds now.
    fn fates(&mut self, line: Option<Line>, found: bool) -> Option<String> {
        let fate = if found { self.fate(line) } else { None };
        let (_, store) = self.drill.state();
        for (held, record) in self.held.iter_mut().zip(store.chunks_exact(RECORD_BYTES)).skip(1) {
            let kind = KINDS.get(usize::from(record[2]).wrapping_sub(1));
            let sent = self.lines;
            *held = kind.map(|kind| held.unwrap_or(Held { kind, sent, delivered: false }));
        }
        fate
    }

    /// Whether a line had a Fetching node mark a row, or take a mark away since
    /// a greater index came.
    fn changed_marks(&mut self) -> Vec<&'static str> {
        let (nodes, _) = self.drill.state();
        let mut changes = Vec::new();
        for (before, node) in self.marks.iter_mut().zip(nodes) {
            if node.marks & !*before != 0 {
                changes.push("mark set");
            }
            if node.phase == Phase::Fetching && *before & !node.marks != 0 {
                changes.push("mark taken away");
            }
            *before = node.marks;
        }
        changes
    }

    fn fate(&mut self, line: Option<Line>) -> Option<String> {
        match line? {
            Line::Call(Call::Drop { record }) => {
                let (_, held) = self.message(record)?;
                (!held.delivered).then(|| format!("lost {}", held.kind))
            }
            Line::Call(Call::Deliver { record }) => {
                let (at, held) = self.message(record)?;
                self.held[at] = Some(Held { delivered: true, ..held });
                let is_late = held.sent < self.newest;
                self.newest = self.newest.max(held.sent);
                let fate = if held.delivered { "repeated" } else { "delayed" };
                (held.delivered || is_late).then(|| format!("{fate} {}", held.kind))
            }
            _ => None,
        }
    }
}
