//! Looks for an input on which the baseline and the library part, or the
//! baseline and another contender, and counts what the inputs reached.

use baseline::layout::{self, RECORD_BYTES};
use baseline::store::{self, RECORDS, STORE_BYTES};

use crate::census::Census;
use crate::chains;
use crate::compare::{Comparison, Difference};
use crate::contender::Contender;
use crate::linked::Linked;
use crate::scripts::{self, Random};
use crate::{KINDS, SIZES};

/// How much one round compares.
#[derive(Clone, Copy, Debug)]
pub struct Extent {
    /// Scripts of each group size, and the lines of the longest.
    pub scripts: usize,
    pub lines: usize,
    /// Stores of each group size, each damaged in some forty ways.
    pub stores: usize,
    /// Stores with chains of any order, of each group size, each linked anew
    /// in some ways.
    pub chains: usize,
    /// Group sizes for which a store is damaged at every offset.
    pub offsets: usize,
    /// Records of each kind and group size, damaged in every byte.
    pub records: usize,
}

/// A search under way.
pub struct Search {
    two: Box<dyn Contender>,
    random: Random,
    pub census: Census,
}

impl Search {
    /// A search among the library's answers.
    pub fn new(seed: u64) -> Search {
        Search::against(Linked::default(), seed)
    }

    /// A search among another contender's answers; the numbers of a record are
    /// still the library's.
    pub fn against(two: impl Contender + 'static, seed: u64) -> Search {
        Search { two: Box::new(two), random: Random::new(seed), census: Census::default() }
    }

    /// One round of everything; the first difference, if any.
    pub fn round(&mut self, extent: Extent) -> Option<Difference> {
        let first = self.random.below(SIZES.len());
        let offsets: Vec<u8> = SIZES.into_iter().cycle().skip(first).take(extent.offsets).collect();
        self.records(extent.records)
            .or_else(|| SIZES.into_iter().find_map(|n| self.stores(n, extent.stores)))
            .or_else(|| SIZES.into_iter().find_map(|n| self.chains(n, extent.chains)))
            .or_else(|| offsets.into_iter().find_map(|n| self.offsets(n)))
            .or_else(|| {
                SIZES.into_iter().find_map(|n| self.scripts(n, extent.scripts, extent.lines))
            })
    }

    /// Scripts that begin with this group size, of all lengths up to so many
    /// lines; with each one in which rows part, and one that fills the store.
    pub fn scripts(&mut self, n: u8, count: usize, lines: usize) -> Option<Difference> {
        (0..count).find_map(|_| {
            let scripts = scripts::scripts_for(&mut self.random, n, lines);
            scripts.iter().find_map(|script| self.script(script))
        })
    }

    /// This script, made as small as can be found if the two part on it.
    pub fn script(&mut self, script: &[u8]) -> Option<Difference> {
        self.census.script(script);
        self.census.note("scripts".into());
        self.comparison().script(script)
    }

    /// Stores as scripts leave them, each damaged in forty ways: in one byte,
    /// in its links, by copied records, cut short or made longer.
    pub fn stores(&mut self, n: u8, count: usize) -> Option<Difference> {
        (0..count).find_map(|_| {
            let lines = self.random.below(300);
            let script = scripts::script_for(&mut self.random, n, lines);
            let mut drill = baseline::drill::Drill::new();
            drill.feed(&script, &mut Vec::new());
            let (nodes, store) = drill.state();
            let n = nodes.len() as u8;
            self.store("store as a script left it", store, n).or_else(|| {
                (0..40).find_map(|_| {
                    let mut damaged = store.to_vec();
                    scripts::damage_store(&mut self.random, &mut damaged);
                    self.store("damaged store", &damaged, n)
                })
            })
        })
    }

    /// Stores with chains of any order, and the same linked anew.
    pub fn chains(&mut self, n: u8, count: usize) -> Option<Difference> {
        (0..count).find_map(|_| {
            let store = chains::store(&mut self.random, n);
            self.store("store with random chains", &store, n).or_else(|| {
                (0..20).find_map(|_| {
                    let mut damaged = store.clone();
                    chains::relink(&mut self.random, &mut damaged);
                    self.store("store linked anew", &damaged, n)
                })
            })
        })
    }

    /// One store, damaged in one bit at each offset in turn.
    pub fn offsets(&mut self, n: u8) -> Option<Difference> {
        let mut store = chains::store(&mut self.random, n);
        (0..STORE_BYTES).find_map(|at| {
            let before = store[at];
            store[at] ^= 1 << self.random.below(8);
            let found = self.store("store damaged in one byte", &store, n);
            store[at] = before;
            found
        })
    }

    fn store(&mut self, what: &str, store: &[u8], n: u8) -> Option<Difference> {
        let verdict = if store::is_sound_for(store, n) { "sound" } else { "unsound" };
        self.census.note(format!("{what}: {verdict}"));
        self.comparison().store(store, n)
    }

    /// Records of every kind for every group size: written, read, read with
    /// each byte damaged, and read and written cut short or too long; then all
    /// numbers of a record, in a store, at the library's boundary.
    pub fn records(&mut self, count: usize) -> Option<Difference> {
        for _ in 0..count {
            let found = self.comparison().records();
            let numbers = || SIZES.into_iter().find_map(|n| self.numbers(n));
            if let Some(found) = found.or_else(numbers) {
                return Some(found);
            }
        }
        None
    }

    /// A record in a store, whole and damaged in each byte: if the baseline
    /// reads it, the library's numbers are the plain fields of its bytes, and
    /// writing them gives the bytes back; if not, the library finds a fault.
    fn numbers(&mut self, n: u8) -> Option<Difference> {
        (1..).zip(KINDS).find_map(|(kind, name)| {
            let record = scripts::record(&mut self.random, kind, n);
            (0..=RECORD_BYTES).find_map(|at| {
                let mut damaged = record;
                if let Some(byte) = damaged.get_mut(at) {
                    *byte ^= 1 << self.random.below(8);
                }
                let readable = layout::read_record(&damaged, n).is_ok();
                let verdict = if readable { "read" } else { "fault" };
                self.census.note(format!("{name} damaged in one byte: {verdict}"));
                let place = self.random.below(RECORDS);
                let agrees = numbers_agree(&damaged, readable, place, n);
                (!agrees).then(|| Difference::Read { record: damaged.to_vec(), n })
            })
        })
    }

    fn comparison(&mut self) -> Comparison<'_> {
        let random = Random::new(self.random.number());
        Comparison { two: &mut *self.two, random }
    }
}

/// Does the library read the plain fields of a record at this place of a
/// store, and write the same bytes there and nowhere else?
fn numbers_agree(record: &[u8], readable: bool, place: usize, n: u8) -> bool {
    let at = place * RECORD_BYTES;
    let mut bytes = vec![0xa5; STORE_BYTES];
    bytes[at..at + RECORD_BYTES].copy_from_slice(record);
    let read = yagvost::read_record(&bytes, place as u64, n.into());
    if read != readable.then(|| plain_fields(record)) {
        return false;
    }
    let Some(numbers) = read else { return true };
    let before = bytes.clone();
    bytes[at..at + RECORD_BYTES].fill(0x5a);
    yagvost::write_record(&mut bytes, place as u64, n.into(), &numbers) && bytes == before
}

/// The numbers of a record as they stand in its bytes.
fn plain_fields(record: &[u8]) -> yagvost::Record {
    let number = |at: usize, width: usize| {
        record[at..at + width].iter().rev().fold(0, |sum, byte| sum << 8 | u64::from(*byte))
    };
    let item = |at: usize| yagvost::Item { index: number(at, 8), tag: number(at + 8, 8) };
    yagvost::Record {
        next: number(0, 2),
        kind: number(2, 1),
        sender: number(3, 1) / 16,
        addressee: number(3, 1) % 16,
        incarnation: number(4, 4),
        other: number(8, 4),
        attempt: number(12, 4),
        item: item(16),
        rows: std::array::from_fn(|row| item(32 + 16 * row)),
    }
}
