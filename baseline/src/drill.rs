//! The drill: a script of calls, one a line, and an answer line for each.
//!
//! A line is a letter, a space and decimal numbers without leading zeros,
//! separated by one space, ended by a line feed. Any other line is answered
//! `unread`, and so is any but `n` before the first accepted `n`.

use crate::group::{self, Call};
use crate::node::Node;
use crate::store::STORE_BYTES;
use crate::{Answer, Incarnation, Refusal, MAX_NODES};

/// More bytes than any readable line has (`w`, two spaces, two numbers of at
/// most twenty digits).
const LINE_LIMIT: usize = 64;

/// Run a whole script; the answers are added to `out`.
pub fn run(script: &[u8], out: &mut Vec<u8>) {
    let mut drill = Drill::new();
    drill.feed(script, out);
    drill.finish(out);
}

/// One readable line.
#[derive(Clone, Copy, Debug, PartialEq, Eq)]
pub enum Line {
    SetUp(u64),
    Call(Call),
}

/// A drill under way: a group, the lines counted, and the start of a line
/// whose end has not come yet.
pub struct Drill {
    nodes: [Node; MAX_NODES],
    store: Vec<u8>,
    /// The group's size, 0 before the first accepted `n`.
    n: usize,
    lines: u64,
    /// The beginning of an unended line, cut once it is too long to be read.
    pending: Vec<u8>,
}

impl Default for Drill {
    fn default() -> Drill {
        Drill::new()
    }
}

impl Drill {
    pub fn new() -> Drill {
        Drill {
            nodes: [Node::down(0, 0, Incarnation(0)); MAX_NODES],
            store: vec![0; STORE_BYTES],
            n: 0,
            lines: 0,
            pending: Vec::with_capacity(LINE_LIMIT),
        }
    }

    /// Run the next part of a script; parts may end anywhere in a line.
    pub fn feed(&mut self, part: &[u8], out: &mut Vec<u8>) {
        let mut rest = part;
        while let Some(end) = rest.iter().position(|byte| *byte == b'\n') {
            let (line, after) = (&rest[..end], &rest[end + 1..]);
            if self.pending.is_empty() {
                self.answer_line(parse(line), out);
            } else {
                self.keep(line);
                let parsed = parse(&self.pending);
                self.pending.clear();
                self.answer_line(parsed, out);
            }
            rest = after;
        }
        self.keep(rest);
    }

    /// End the script: an unended last line is unread.
    pub fn finish(&mut self, out: &mut Vec<u8>) {
        if !self.pending.is_empty() {
            self.pending.clear();
            self.answer_line(None, out);
        }
    }

    /// The table and store as the script so far left them.
    pub fn state(&self) -> (&[Node], &[u8]) {
        (&self.nodes[..self.n], &self.store)
    }

    fn keep(&mut self, bytes: &[u8]) {
        let room = LINE_LIMIT - self.pending.len();
        self.pending.extend_from_slice(&bytes[..bytes.len().min(room)]);
    }

    fn answer_line(&mut self, line: Option<Line>, out: &mut Vec<u8>) {
        self.lines += 1;
        push_number(out, self.lines);
        match line.and_then(|line| self.perform(line)) {
            None => out.extend_from_slice(b" unread"),
            Some(Ok(answer)) => push_answer(out, answer),
            Some(Err(refusal)) => push_word(out, b" refused ", refusal.number().into()),
        }
        out.push(b'\n');
    }

    /// Do what a line says; nothing if there is no group for it yet.
    fn perform(&mut self, line: Line) -> Option<Result<Answer, Refusal>> {
        match line {
            Line::SetUp(n) => {
                let size = usize::try_from(n).unwrap_or(usize::MAX);
                let table = self.nodes.get_mut(..size).unwrap_or_default();
                let answer = group::set_up(n, table, &mut self.store);
                if answer.is_ok() {
                    self.n = size;
                }
                Some(answer)
            }
            Line::Call(_) if self.n == 0 => None,
            Line::Call(call) => {
                Some(group::perform(&mut self.nodes[..self.n], &mut self.store, call))
            }
        }
    }
}

/// Read a line without its line feed.
pub fn parse(line: &[u8]) -> Option<Line> {
    let (letter, rest) = line.split_first()?;
    let (first, rest) = parse_number(rest)?;
    if *letter == b'w' {
        let (tag, rest) = parse_number(rest)?;
        return rest.is_empty().then_some(Line::Call(Call::Write { node: first, tag }));
    }
    let line = match letter {
        b'n' => Line::SetUp(first),
        b'r' => Line::Call(Call::Retry { node: first }),
        b'c' => Line::Call(Call::Crash { node: first }),
        b's' => Line::Call(Call::Start { node: first }),
        b'x' => Line::Call(Call::Drop { record: first }),
        b'd' => Line::Call(Call::Deliver { record: first }),
        _ => return None,
    };
    rest.is_empty().then_some(line)
}

/// Read a space and a decimal number; the number and what follows it.
fn parse_number(text: &[u8]) -> Option<(u64, &[u8])> {
    let text = text.strip_prefix(b" ")?;
    let digits = text.iter().take_while(|byte| byte.is_ascii_digit()).count();
    let (number, rest) = text.split_at(digits);
    if digits == 0 || (digits > 1 && number[0] == b'0') {
        return None;
    }
    let value = number.iter().try_fold(0u64, |value, digit| {
        value.checked_mul(10)?.checked_add(u64::from(digit - b'0'))
    })?;
    Some((value, rest))
}

fn push_answer(out: &mut Vec<u8>, answer: Answer) {
    match answer {
        Answer::Ok => out.extend_from_slice(b" ok"),
        Answer::Settled(item) => {
            push_word(out, b" settled ", item.index.0);
            push_word(out, b" ", item.tag);
        }
        Answer::Accepted(item) => {
            push_word(out, b" accepted ", item.index.0);
            push_word(out, b" ", item.tag);
        }
        Answer::Stopped(row) => push_word(out, b" stopped ", row.into()),
    }
}

fn push_word(out: &mut Vec<u8>, word: &[u8], number: u64) {
    out.extend_from_slice(word);
    push_number(out, number);
}

/// Add a number in decimal.
fn push_number(out: &mut Vec<u8>, number: u64) {
    let mut digits = [0; 20];
    let (mut at, mut left) = (digits.len(), number);
    loop {
        at -= 1;
        digits[at] = b'0' + (left % 10) as u8;
        left /= 10;
        if left == 0 {
            break;
        }
    }
    out.extend_from_slice(&digits[at..]);
}
