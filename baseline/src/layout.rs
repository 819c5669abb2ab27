//! One message record: 272 bytes, little-endian.
//!
//! | bytes  | field                         |
//! |--------|-------------------------------|
//! | 0-1    | next record of the chain      |
//! | 2      | kind                          |
//! | 3      | sender × 16 + addressee       |
//! | 4-7    | sender's incarnation          |
//! | 8-11   | other incarnation             |
//! | 12-15  | attempt                       |
//! | 16-23  | index                         |
//! | 24-31  | tag                           |
//! | 32-271 | fifteen rows of index and tag |

use crate::{Attempt, Incarnation, Index, Item, MAX_NODES};

pub const RECORD_BYTES: usize = 272;

/// Where the rows begin, and how many bytes each has.
const ROWS_AT: usize = 32;
const ROW_BYTES: usize = 16;

/// The bytes of one record.
pub type Record = [u8; RECORD_BYTES];

/// The items of a table, by node number; zero from the group's size on.
pub type Rows = [Item; MAX_NODES];

/// The six kinds of message. "Other" is the incarnation of the node spoken to,
/// as the sender knows it. A letter lives on the stack for one call, so a
/// table's rows are kept in place and not on the heap.
#[allow(clippy::large_enum_variant)]
#[derive(Clone, Copy, Debug, PartialEq, Eq)]
pub enum Message {
    Store { attempt: Attempt, item: Item },
    Stored { other: Incarnation, attempt: Attempt, item: Item },
    Confirm { other: Incarnation, attempt: Attempt, item: Item },
    Confirmed { other: Incarnation, attempt: Attempt, item: Item },
    Fetch,
    Table { other: Incarnation, rows: Rows },
}

/// A message with its ends: who sent it, under which incarnation, and to whom.
#[derive(Clone, Copy, Debug, PartialEq, Eq)]
pub struct Letter {
    pub sender: u8,
    pub addressee: u8,
    pub incarnation: Incarnation,
    pub message: Message,
}

/// Why bytes are no message.
#[derive(Clone, Copy, Debug, PartialEq, Eq)]
pub enum Fault {
    /// Not 272 bytes.
    Length,
    /// Kind 0 or above 6.
    Kind,
    /// A byte the kind has no use for is not zero.
    StrayByte,
}

/// Read a record of a group of n nodes. The chain's next index and the two
/// ends are the store's matter and are not judged here.
pub fn read_record(bytes: &[u8], n: u8) -> Result<Letter, Fault> {
    let record: &Record = bytes.try_into().map_err(|_| Fault::Length)?;
    check_record(record, n)?;
    let other = Incarnation(u32_at(record, 8));
    let attempt = Attempt(u32_at(record, 12));
    let item = item_at(record, 16);
    let message = match record[2] {
        1 => Message::Store { attempt, item },
        2 => Message::Stored { other, attempt, item },
        3 => Message::Confirm { other, attempt, item },
        4 => Message::Confirmed { other, attempt, item },
        5 => Message::Fetch,
        _ => Message::Table { other, rows: read_rows(record) },
    };
    Ok(Letter {
        sender: sender(record),
        addressee: addressee(record),
        incarnation: Incarnation(u32_at(record, 4)),
        message,
    })
}

/// Is this a readable record of a group of n nodes? The same judgement as
/// `read_record`, without making the message.
#[inline]
pub fn check_record(record: &Record, n: u8) -> Result<(), Fault> {
    let other = u64::from(u32_at(record, 8));
    let attempt = u64::from(u32_at(record, 12));
    let item = u64_at(record, 16) | u64_at(record, 24);
    let stray = match record[2] {
        1 => other | all_rows(record),
        2..=4 => all_rows(record),
        5 => other | attempt | item | all_rows(record),
        6 => attempt | item | rows_from(record, n),
        _ => return Err(Fault::Kind),
    };
    if stray == 0 {
        Ok(())
    } else {
        Err(Fault::StrayByte)
    }
}

/// Write the letter over all 272 bytes, with next 0. Rows from n on are zero
/// in what is written, whatever the letter holds there. Nothing is written
/// unless there are 272 bytes.
pub fn write_record(bytes: &mut [u8], letter: &Letter, n: u8) -> Result<(), Fault> {
    let record: &mut Record = bytes.try_into().map_err(|_| Fault::Length)?;
    put_letter(record, letter, n);
    Ok(())
}

/// As `write_record`, for a whole record.
pub fn put_letter(record: &mut Record, letter: &Letter, n: u8) {
    let none = Incarnation(0);
    let (kind, other, attempt, item) = match letter.message {
        Message::Store { attempt, item } => (1, none, attempt, item),
        Message::Stored { other, attempt, item } => (2, other, attempt, item),
        Message::Confirm { other, attempt, item } => (3, other, attempt, item),
        Message::Confirmed { other, attempt, item } => (4, other, attempt, item),
        Message::Fetch => (5, none, Attempt(0), Item::ZERO),
        Message::Table { other, .. } => (6, other, Attempt(0), Item::ZERO),
    };
    record[0..2].fill(0);
    record[2] = kind;
    record[3] = letter.sender << 4 | letter.addressee & 15;
    record[4..8].copy_from_slice(&letter.incarnation.0.to_le_bytes());
    record[8..12].copy_from_slice(&other.0.to_le_bytes());
    record[12..16].copy_from_slice(&attempt.0.to_le_bytes());
    put_item(&mut record[16..32], item);
    record[ROWS_AT..].fill(0);
    if let Message::Table { rows, .. } = &letter.message {
        let places = record[ROWS_AT..].chunks_exact_mut(ROW_BYTES);
        for (place, row) in places.zip(rows).take(n.into()) {
            put_item(place, *row);
        }
    }
}

/// The chain's next record, or 0 at its end.
#[inline]
pub fn next(record: &Record) -> u16 {
    u16::from_le_bytes([record[0], record[1]])
}

pub fn set_next(record: &mut Record, next: u16) {
    record[0..2].copy_from_slice(&next.to_le_bytes());
}

#[inline]
pub fn sender(record: &Record) -> u8 {
    record[3] >> 4
}

#[inline]
pub fn addressee(record: &Record) -> u8 {
    record[3] & 15
}

/// Is every byte after next zero, as in a free record?
#[inline]
pub fn is_blank(record: &Record) -> bool {
    let first = u64_at(record, 0) >> 16;
    first | or_of_words(&record[8..]) == 0
}

/// The or of a run of whole words: zero if and only if all bytes are.
#[inline]
pub fn or_of_words(bytes: &[u8]) -> u64 {
    let (words, rest) = bytes.as_chunks::<8>();
    debug_assert!(rest.is_empty());
    words.iter().fold(0, |all, word| all | u64::from_le_bytes(*word))
}

#[inline]
fn all_rows(record: &Record) -> u64 {
    or_of_words(&record[ROWS_AT..])
}

#[inline]
fn rows_from(record: &Record, n: u8) -> u64 {
    let used = usize::from(n).min(MAX_NODES) * ROW_BYTES;
    or_of_words(&record[ROWS_AT + used..])
}

fn read_rows(record: &Record) -> Rows {
    std::array::from_fn(|row| item_at(record, ROWS_AT + row * ROW_BYTES))
}

fn put_item(place: &mut [u8], item: Item) {
    place[0..8].copy_from_slice(&item.index.0.to_le_bytes());
    place[8..16].copy_from_slice(&item.tag.to_le_bytes());
}

#[inline]
fn item_at(record: &Record, at: usize) -> Item {
    Item { index: Index(u64_at(record, at)), tag: u64_at(record, at + 8) }
}

#[inline]
fn u32_at(record: &Record, at: usize) -> u32 {
    u32::from_le_bytes(record[at..at + 4].try_into().expect("four bytes"))
}

#[inline]
fn u64_at(record: &Record, at: usize) -> u64 {
    u64::from_le_bytes(record[at..at + 8].try_into().expect("eight bytes"))
}
