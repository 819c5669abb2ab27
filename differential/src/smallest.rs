//! Makes a script that shows a difference as small as can be found.
//!
//! Lines are left out, and what is left is told again: a line that names a
//! record means the message in it, so if fewer messages were sent before, the
//! message stands in another record and the line names that one.

use baseline::drill::{self, Drill, Line};
use baseline::group::Call;
use baseline::layout::RECORD_BYTES;
use baseline::store::RECORDS;

/// A message, by the step that sent it and its addressee.
type MessageId = (usize, u8);

/// One line, with the message it means if it names one.
#[derive(Clone, Debug)]
struct Step {
    number: usize,
    line: Vec<u8>,
    about: Option<MessageId>,
}

/// The smallest script found, by leaving out lines, that still shows the
/// difference. The script itself must show it.
pub fn smallest(script: &[u8], mut differs: impl FnMut(&[u8]) -> bool) -> Vec<u8> {
    let mut steps = take_down(script);
    let mut found = script.to_vec();
    let mut run = steps.len();
    while run > 0 {
        let before = steps.len();
        let mut at = 0;
        while at < steps.len() {
            let end = (at + run).min(steps.len());
            let less = [&steps[..at], &steps[end..]].concat();
            let told = tell(&less);
            if differs(&told) {
                (steps, found) = (less, told);
            } else {
                at = end;
            }
        }
        // Single lines are tried until none can be left out.
        if run > 1 || steps.len() == before {
            run /= 2;
        }
    }
    found
}

/// The steps of a script, with the messages they mean.
fn take_down(script: &[u8]) -> Vec<Step> {
    let mut scene = Scene::new();
    let lines = script.split_inclusive(|byte| *byte == b'\n').enumerate();
    lines
        .map(|(number, line)| {
            let about = record_of(line).and_then(|(_, record)| scene.message_in(record));
            scene.run(number, line);
            Step { number, line: line.to_vec(), about }
        })
        .collect()
}

/// The script of these steps; one that means a message not sent now, or gone
/// by now, is left out.
fn tell(steps: &[Step]) -> Vec<u8> {
    let mut scene = Scene::new();
    let mut script = Vec::new();
    for step in steps {
        let line = match (step.about, record_of(&step.line)) {
            (Some(message), Some((letter, _))) => {
                let Some(record) = scene.record_with(message) else { continue };
                format!("{letter} {record}\n").into_bytes()
            }
            _ => step.line.clone(),
        };
        scene.run(step.number, &line);
        script.extend_from_slice(&line);
    }
    script
}

/// The letter and record of a line that names a record.
fn record_of(line: &[u8]) -> Option<(char, u64)> {
    match drill::parse(line.strip_suffix(b"\n")?)? {
        Line::Call(Call::Deliver { record }) => Some(('d', record)),
        Line::Call(Call::Drop { record }) => Some(('x', record)),
        _ => None,
    }
}

/// A drill under way, and which message each record holds.
struct Scene {
    drill: Drill,
    answers: Vec<u8>,
    messages: [Option<MessageId>; RECORDS],
}

impl Scene {
    fn new() -> Scene {
        Scene { drill: Drill::new(), answers: Vec::new(), messages: [None; RECORDS] }
    }

    fn message_in(&self, record: u64) -> Option<MessageId> {
        *self.messages.get(usize::try_from(record).ok()?)?
    }

    fn record_with(&self, message: MessageId) -> Option<usize> {
        self.messages.iter().position(|held| *held == Some(message))
    }

    /// Run a line; the records it fills hold this step's messages.
    fn run(&mut self, number: usize, line: &[u8]) {
        self.drill.feed(line, &mut self.answers);
        let is_set_up = line.first() == Some(&b'n') && self.answers.ends_with(b"ok\n");
        self.answers.clear();
        if is_set_up {
            self.messages = [None; RECORDS];
        }
        let (_, store) = self.drill.state();
        let records = store.chunks_exact(RECORD_BYTES);
        for (message, record) in self.messages.iter_mut().zip(records).skip(1) {
            let addressee = record[3] & 15;
            *message = (record[2] != 0).then(|| message.unwrap_or((number, addressee)));
        }
    }
}
