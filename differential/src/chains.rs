//! Stores made from scratch: their chains run through the records in any
//! order, and some are then linked wrongly.

use baseline::layout::{self, Letter, Record, RECORD_BYTES};
use baseline::store::{RECORDS, STORE_BYTES};

use crate::scripts::{self, Random};

/// A sound store of n nodes: every record from 1 on stands at a random place
/// of a random chain.
pub fn store(random: &mut Random, n: u8) -> Vec<u8> {
    let mut bytes = vec![0; STORE_BYTES];
    bytes[2] = n;
    // The last record of each chain so far, 0 if it is empty: the free chain
    // and then the inboxes. Now and then most records are free, or none is.
    let mut last = vec![0; 1 + usize::from(n)];
    let free = *random.pick(&[0, 20, 60, 95]);
    for record in shuffled(random) {
        let chain = if random.percent(free) { 0 } else { random.below(last.len()) };
        link(&mut bytes, chain, last[chain], record);
        last[chain] = record;
        if let Some(owner) = chain.checked_sub(1) {
            let message = message_to(random, owner as u8, n);
            let at = usize::from(record) * RECORD_BYTES;
            bytes[at..at + RECORD_BYTES].copy_from_slice(&message);
        }
    }
    bytes
}

/// Link some records of a store anew, now and then one to itself: loops, shared
/// records, lost ones.
pub fn relink(random: &mut Random, store: &mut [u8]) {
    for _ in 0..1 + random.below(3) {
        let from = random.below(RECORDS);
        let to = if random.percent(20) { from } else { random.below(RECORDS + 8) } as u16;
        let at = from * RECORD_BYTES + if from == 0 { random.below(34) } else { 0 };
        store[at..at + 2].copy_from_slice(&to.to_le_bytes());
    }
}

/// The record comes after the last one of its chain.
fn link(bytes: &mut [u8], chain: usize, last: u16, record: u16) {
    let at = match (last, chain.checked_sub(1)) {
        (0, None) => 0,
        (0, Some(owner)) => 4 + 2 * owner,
        (last, _) => usize::from(last) * RECORD_BYTES,
    };
    bytes[at..at + 2].copy_from_slice(&record.to_le_bytes());
}

/// The numbers of all records but the head, in any order.
fn shuffled(random: &mut Random) -> Vec<u16> {
    let mut records: Vec<u16> = (1..RECORDS as u16).collect();
    for at in (1..records.len()).rev() {
        records.swap(at, random.below(at + 1));
    }
    records
}

/// A message of any kind from any other node.
fn message_to(random: &mut Random, addressee: u8, n: u8) -> Record {
    let sender = (addressee + 1 + random.below(usize::from(n) - 1) as u8) % n;
    let kind = 1 + random.below(6) as u8;
    let letter = Letter { sender, addressee, ..scripts::letter(random, kind, n) };
    let mut record = [0; RECORD_BYTES];
    layout::put_letter(&mut record, &letter, n);
    record
}
