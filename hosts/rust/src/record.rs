//! One record as its numbers, read from bytes and written to them.

use crate::{calls, RECORD_BYTES, ROWS};

/// An index with the tag written under it.
#[repr(C)]
#[derive(Clone, Copy, Debug, Default, PartialEq, Eq)]
pub struct Item {
    pub index: u64,
    pub tag: u64,
}

/// The numbers of a record, in the library's own form: 39 of 64 bits, in the
/// order of the record's bytes. A number that the kind has no use for is zero.
#[repr(C)]
#[derive(Clone, Copy, Debug, Default, PartialEq, Eq)]
pub struct Record {
    /// The chain's next record, 0 at its end; 16 bits in the record.
    pub next: u64,
    /// 1 Store, 2 Stored, 3 Confirm, 4 Confirmed, 5 Fetch, 6 Table.
    pub kind: u64,
    /// Node numbers, 0 to 15.
    pub sender: u64,
    pub addressee: u64,
    /// The sender's incarnation; like the next two, 32 bits in the record.
    pub incarnation: u64,
    /// The other incarnation that the message names.
    pub other: u64,
    pub attempt: u64,
    pub item: Item,
    /// A Table's rows, by node number; zero from n on.
    pub rows: [Item; ROWS],
}

/// The message in a record of these bytes, for a group of n nodes. Nothing if
/// the record does not lie whole within the bytes, or is not a message.
pub fn read_record(bytes: &[u8], record: u64, n: u64) -> Option<Record> {
    let mut message = Record::default();
    read_record_into(bytes, record, n, &mut message).then_some(message)
}

/// As `read_record`, into numbers that the caller lends. False, and no number
/// changed, where there is no message.
pub fn read_record_into(bytes: &[u8], record: u64, n: u64, message: &mut Record) -> bool {
    lies_within(bytes, record) && calls::read_record(bytes, record, n, message)
}

/// Write a message over a record of these bytes, for a group of n nodes. False,
/// and no byte changed, if the record does not lie whole within the bytes, the
/// kind is not 1 to 6, a number does not fit its field, or one that the kind
/// has no use for is not zero.
pub fn write_record(bytes: &mut [u8], record: u64, n: u64, message: &Record) -> bool {
    lies_within(bytes, record) && calls::write_record(bytes, record, n, message)
}

fn lies_within(bytes: &[u8], record: u64) -> bool {
    record < (bytes.len() / RECORD_BYTES) as u64
}
