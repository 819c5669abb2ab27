//! The message store: 240 records of 272 bytes on chains.
//!
//! Record 0 is the head: bytes 0-1 the first free record, byte 2 the group's
//! size n, byte 3 zero, from byte 4 two bytes for each node's first inbox
//! record, the rest zero. Every other record stands on the free chain or on one
//! inbox; next 0 ends a chain.

use crate::layout::{self, Letter, Record, RECORD_BYTES};
use crate::{is_group_size, Refusal, MAX_NODES};

pub const RECORDS: usize = 240;
pub const STORE_BYTES: usize = RECORDS * RECORD_BYTES;

/// Where the head keeps n and the inboxes' first records.
const SIZE_AT: usize = 2;
const INBOXES_AT: usize = 4;

type Records = [Record; RECORDS];

/// A set of record numbers below 240.
#[derive(Clone, Copy, Debug, Default, PartialEq, Eq)]
struct RecordSet([u64; 4]);

impl RecordSet {
    /// Add a record; false if it was there.
    #[inline]
    fn insert(&mut self, record: u16) -> bool {
        let word = &mut self.0[usize::from(record >> 6) & 3];
        let bit = 1 << (record & 63);
        let new = *word & bit == 0;
        *word |= bit;
        new
    }

    fn remove(&mut self, record: u16) {
        self.0[usize::from(record >> 6) & 3] &= !(1 << (record & 63));
    }

    fn contains(&self, record: u16) -> bool {
        self.0[usize::from(record >> 6) & 3] & 1 << (record & 63) != 0
    }

    fn len(&self) -> u32 {
        self.0.iter().map(|word| word.count_ones()).sum()
    }
}

/// What one walk over a sound store finds out.
#[derive(Clone, Copy, Debug)]
struct Survey {
    n: u8,
    free: usize,
    /// The records on inbox chains.
    held: RecordSet,
    /// Each inbox's last record, 0 if it is empty.
    last: [u16; MAX_NODES],
}

/// Are these bytes a sound store?
pub fn is_sound(bytes: &[u8]) -> bool {
    as_records(bytes).and_then(survey).is_some()
}

/// Are these bytes a sound store of a group of n nodes?
pub fn is_sound_for(bytes: &[u8], n: u8) -> bool {
    as_records(bytes).and_then(survey).is_some_and(|found| found.n == n)
}

/// The number of free records, if the store is sound.
pub fn free_count(bytes: &[u8]) -> Option<usize> {
    as_records(bytes).and_then(survey).map(|found| found.free)
}

/// Make the bytes a store of n nodes without messages: free chain 1, 2, .. 239.
pub fn set_up(bytes: &mut [u8], n: u8) -> Result<(), Refusal> {
    if !is_group_size(n.into()) {
        return Err(Refusal::GroupSize);
    }
    if bytes.len() != STORE_BYTES {
        return Err(Refusal::StoreLength);
    }
    bytes.fill(0);
    let (records, _) = bytes.as_chunks_mut::<RECORD_BYTES>();
    for (record, next) in records.iter_mut().zip(1..RECORDS as u16) {
        layout::set_next(record, next);
    }
    records[0][SIZE_AT] = n;
    Ok(())
}

/// A store found sound, borrowed for one call. What `open` found out on its
/// walk is kept up to date, so that no chain is walked twice.
pub struct Store<'a> {
    records: &'a mut Records,
    found: Survey,
}

impl<'a> Store<'a> {
    /// Refused as 2 if it has another length, as 3 if it is unsound.
    pub fn open(bytes: &'a mut [u8]) -> Result<Store<'a>, Refusal> {
        if bytes.len() != STORE_BYTES {
            return Err(Refusal::StoreLength);
        }
        let (records, _) = bytes.as_chunks_mut::<RECORD_BYTES>();
        let records: &mut Records = records.try_into().map_err(|_| Refusal::StoreLength)?;
        let found = survey(records).ok_or(Refusal::Unsound)?;
        Ok(Store { records, found })
    }

    /// The group's size.
    pub fn n(&self) -> u8 {
        self.found.n
    }

    /// How many records are free.
    pub fn free(&self) -> usize {
        self.found.free
    }

    /// The record's number in 16 bits, if it is on an inbox chain.
    pub fn inbox_record(&self, record: u64) -> Option<u16> {
        let number = u16::try_from(record).ok().filter(|at| usize::from(*at) < RECORDS)?;
        self.found.held.contains(number).then_some(number)
    }

    /// The letter in a record on an inbox chain. Refused as 8 for any other
    /// record.
    pub fn letter(&self, record: u64) -> Result<Letter, Refusal> {
        let at = self.inbox_record(record).ok_or(Refusal::NotInInbox)?;
        layout::read_record(&self.records[usize::from(at)], self.found.n)
            .map_err(|_| Refusal::Unsound)
    }

    /// Put a letter at its addressee's inbox's end, in the first free record.
    /// Refused as 4 if it is not from one node of the group to another, as 7
    /// if no record is free.
    pub fn put(&mut self, letter: &Letter) -> Result<(), Refusal> {
        let (n, owner) = (self.found.n, usize::from(letter.addressee));
        if letter.sender >= n || letter.addressee >= n || letter.sender == letter.addressee {
            return Err(Refusal::NoSuchNode);
        }
        let taken = layout::next(&self.records[0]);
        if taken == 0 {
            return Err(Refusal::NoRoom);
        }
        let record = &mut self.records[usize::from(taken)];
        let free = layout::next(record);
        layout::put_letter(record, letter, n);
        layout::set_next(&mut self.records[0], free);
        match self.found.last[owner] {
            0 => set_inbox(&mut self.records[0], owner, taken),
            last => layout::set_next(&mut self.records[usize::from(last)], taken),
        }
        self.found.last[owner] = taken;
        self.found.free -= 1;
        self.found.held.insert(taken);
        Ok(())
    }

    /// Put a letter to each of the nodes, by rising number; `letter_to` makes
    /// the one for each. `nodes` has a bit for each node number. Refused as 7,
    /// before anything is put, if there are fewer free records than nodes.
    pub fn put_to_several(
        &mut self,
        nodes: u16,
        mut letter_to: impl FnMut(u8) -> Letter,
    ) -> Result<(), Refusal> {
        if self.found.free < nodes.count_ones() as usize {
            return Err(Refusal::NoRoom);
        }
        let mut left = nodes;
        while left != 0 {
            self.put(&letter_to(left.trailing_zeros() as u8))?;
            left &= left - 1;
        }
        Ok(())
    }

    /// Take a record off its inbox, clear it and make it the first free one.
    /// Refused as 8 if it is on no inbox chain.
    pub fn drop_record(&mut self, record: u64) -> Result<(), Refusal> {
        let gone = self.inbox_record(record).ok_or(Refusal::NotInInbox)?;
        let owner = usize::from(layout::addressee(&self.records[usize::from(gone)]));
        let before = self.before(gone, owner);
        let after = layout::next(&self.records[usize::from(gone)]);
        match before {
            0 => set_inbox(&mut self.records[0], owner, after),
            before => layout::set_next(&mut self.records[usize::from(before)], after),
        }
        if after == 0 {
            self.found.last[owner] = before;
        }
        let free = layout::next(&self.records[0]);
        self.records[usize::from(gone)].fill(0);
        layout::set_next(&mut self.records[usize::from(gone)], free);
        layout::set_next(&mut self.records[0], gone);
        self.found.free += 1;
        self.found.held.remove(gone);
        Ok(())
    }

    /// The record before this one on the owner's inbox chain, 0 if it is the
    /// first. The record is known to be on that chain.
    fn before(&self, record: u16, owner: usize) -> u16 {
        let mut before = 0;
        let mut at = inbox(&self.records[0], owner);
        while at != record && at != 0 {
            before = at;
            at = layout::next(&self.records[usize::from(at)]);
        }
        before
    }
}

fn as_records(bytes: &[u8]) -> Option<&Records> {
    let (records, rest) = bytes.as_chunks::<RECORD_BYTES>();
    if rest.is_empty() {
        records.try_into().ok()
    } else {
        None
    }
}

/// Walk every chain once. Nothing if the store is unsound: each record must
/// come up exactly once, so a loop or a shared record ends the walk, and one
/// on no chain is missing from the count.
fn survey(records: &Records) -> Option<Survey> {
    let head = &records[0];
    let n = sound_head(head)?;
    let mut seen = RecordSet([1, 0, 0, 0]);
    let mut last = [0; MAX_NODES];
    walk(records, layout::next(head), &mut seen, layout::is_blank)?;
    let on_free = seen;
    for owner in 0..n {
        let first = inbox(head, owner.into());
        last[usize::from(owner)] =
            walk(records, first, &mut seen, |record| is_held(record, n, owner))?;
    }
    let held = RecordSet(std::array::from_fn(|word| seen.0[word] & !on_free.0[word]));
    let free = on_free.len() as usize - 1;
    (seen.len() as usize == RECORDS).then_some(Survey { n, free, held, last })
}

/// Walk one chain of records that are all sound and not yet seen; its last
/// record, 0 if it is empty.
#[inline]
fn walk(
    records: &Records,
    first: u16,
    seen: &mut RecordSet,
    is_sound: impl Fn(&Record) -> bool,
) -> Option<u16> {
    let (mut last, mut at) = (0, first);
    while at != 0 {
        let record = records.get(usize::from(at))?;
        if !seen.insert(at) || !is_sound(record) {
            return None;
        }
        (last, at) = (at, layout::next(record));
    }
    Some(last)
}

/// The head's n, if n is valid and the head zero where it must be.
fn sound_head(head: &Record) -> Option<u8> {
    let n = head[SIZE_AT];
    let used = INBOXES_AT + 2 * usize::from(n);
    let is_sound = is_group_size(n.into())
        && head[SIZE_AT + 1] == 0
        && head[used..].iter().fold(0, |all, byte| all | byte) == 0;
    is_sound.then_some(n)
}

/// Is this a sound record of the owner's inbox?
#[inline]
fn is_held(record: &Record, n: u8, owner: u8) -> bool {
    let (from, to) = (layout::sender(record), layout::addressee(record));
    to == owner && from < n && from != to && layout::check_record(record, n).is_ok()
}

fn inbox(head: &Record, owner: usize) -> u16 {
    let at = INBOXES_AT + 2 * owner;
    u16::from_le_bytes([head[at], head[at + 1]])
}

fn set_inbox(head: &mut Record, owner: usize, first: u16) {
    let at = INBOXES_AT + 2 * owner;
    head[at..at + 2].copy_from_slice(&first.to_le_bytes());
}
