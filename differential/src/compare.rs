//! Asks the baseline and a second implementation the same, and says on what
//! they part: a script, a store, or records made from a seed.

use std::fmt;

use baseline::layout::RECORD_BYTES;

use crate::contender::{Baseline, Contender};
use crate::scripts::{self, Random};
use crate::smallest::smallest;
use crate::{KINDS, SIZES};

/// An input on which the baseline, one, and a second implementation, two, part.
#[derive(Clone, Debug, PartialEq, Eq)]
pub enum Difference {
    /// The smallest script found, with the answers of either.
    Script { script: Vec<u8>, one: Vec<u8>, two: Vec<u8> },
    /// A store, the group size asked for, and who calls it sound.
    Store { store: Vec<u8>, n: u8, one: bool, two: bool },
    /// A record read differently in a group of n.
    Read { record: Vec<u8>, n: u8 },
    /// A letter written differently in a group of n; the bytes by the baseline.
    Write { record: Vec<u8>, n: u8 },
}

impl fmt::Display for Difference {
    fn fmt(&self, to: &mut fmt::Formatter) -> fmt::Result {
        match self {
            Difference::Script { script, one, two } => {
                let [script, one, two] = [script, one, two].map(|text| text.escape_ascii());
                write!(to, "script    {script}\nbaseline  {one}\nsecond    {two}")
            }
            Difference::Store { store, n, one, two } => {
                let bytes = store.len();
                write!(to, "store of {bytes} bytes for n {n}: sound {one} and {two}")
            }
            Difference::Read { record, n } => write!(to, "read for n {n}: {record:?}"),
            Difference::Write { record, n } => write!(to, "write for n {n}: {record:?}"),
        }
    }
}

/// The baseline's answers to a script.
pub fn expected(script: &[u8]) -> Vec<u8> {
    let mut out = Vec::new();
    Baseline.run_script(script, &mut out);
    out
}

/// This script, made as small as can be found, if these answers to it part from
/// the baseline's.
pub fn script_difference(
    script: &[u8],
    mut answers: impl FnMut(&[u8]) -> Vec<u8>,
) -> Option<Difference> {
    if answers(script) == expected(script) {
        return None;
    }
    let script = smallest(script, |less| answers(less) != expected(less));
    let (one, two) = (expected(&script), answers(&script));
    Some(Difference::Script { script, one, two })
}

/// The baseline, a second implementation, and where the inputs come from.
pub struct Comparison<'a> {
    pub two: &'a mut dyn Contender,
    pub random: Random,
}

impl Comparison<'_> {
    /// This script, made as small as can be found if the two part on it.
    pub fn script(&mut self, script: &[u8]) -> Option<Difference> {
        script_difference(script, |script| {
            let mut out = Vec::new();
            self.two.run_script(script, &mut out);
            out
        })
    }

    /// Do the two agree on this store, for n and for another group size?
    pub fn store(&mut self, store: &[u8], n: u8) -> Option<Difference> {
        [n, self.random.below(18) as u8].into_iter().find_map(|n| {
            let (one, two) = (Baseline.is_sound(store, n), self.two.is_sound(store, n));
            let part = || Difference::Store { store: store.to_vec(), n, one, two };
            (one != two).then(part)
        })
    }

    /// Records of every kind for every group size: written, read, read with
    /// each byte damaged, and read and written cut short or too long.
    pub fn records(&mut self) -> Option<Difference> {
        let kinds = 1..=KINDS.len() as u8;
        let mut all = SIZES.into_iter().flat_map(|n| kinds.clone().map(move |kind| (n, kind)));
        all.find_map(|(n, kind)| self.record(kind, n))
    }

    fn record(&mut self, kind: u8, n: u8) -> Option<Difference> {
        let record = scripts::record(&mut self.random, kind, n);
        for at in 0..RECORD_BYTES {
            let mut damaged = record;
            damaged[at] ^= 1 << self.random.below(8);
            if let Some(found) = self.read(&damaged, n) {
                return Some(found);
            }
        }
        let long = [&record[..], &[0]].concat();
        self.read(&record, n)
            .or_else(|| self.read(&record[1..], n))
            .or_else(|| self.read(&long, n))
            .or_else(|| self.write(kind, n, RECORD_BYTES))
            .or_else(|| self.write(kind, n, RECORD_BYTES - 1))
            .or_else(|| self.write(kind, n, RECORD_BYTES + 1))
    }

    fn read(&mut self, record: &[u8], n: u8) -> Option<Difference> {
        let same = Baseline.read_record(record, n) == self.two.read_record(record, n);
        (!same).then(|| Difference::Read { record: record.to_vec(), n })
    }

    fn write(&mut self, kind: u8, n: u8, length: usize) -> Option<Difference> {
        let letter = scripts::letter(&mut self.random, kind, n);
        let (mut one, mut two) = (vec![0xa5; length], vec![0xa5; length]);
        let wrote = Baseline.write_record(&mut one, &letter, n);
        let same = wrote == self.two.write_record(&mut two, &letter, n) && one == two;
        (!same).then_some(Difference::Write { record: one, n })
    }
}
