//! The proved library as a contender.

use baseline::layout::{Letter, Message, RECORD_BYTES};
use baseline::{Attempt, Incarnation, Index, Item};
use yagvost::Record;

use crate::contender::Contender;

/// The library, with room for answers that is kept from script to script.
#[derive(Default)]
pub struct Linked {
    room: Vec<u8>,
}

impl Contender for Linked {
    fn run_script(&mut self, script: &[u8], out: &mut Vec<u8>) {
        let wanted = yagvost::room_for(script);
        if self.room.len() < wanted {
            self.room.resize(wanted, 0);
        }
        match yagvost::run_script_into(script, &mut self.room) {
            Some(printed) => out.extend_from_slice(&self.room[..printed]),
            None => out.extend_from_slice(b"no room\n"),
        }
    }

    fn is_sound(&mut self, store: &[u8], n: u8) -> bool {
        yagvost::is_sound(store, n.into())
    }

    fn read_record(&mut self, record: &[u8], n: u8) -> Option<Letter> {
        if record.len() != RECORD_BYTES {
            return None;
        }
        letter(&yagvost::read_record(record, 0, n.into())?)
    }

    fn write_record(&mut self, bytes: &mut [u8], letter: &Letter, n: u8) -> bool {
        bytes.len() == RECORD_BYTES && yagvost::write_record(bytes, 0, n.into(), &record(letter))
    }
}

/// The letter that a record's numbers stand for; nothing if one of them does
/// not fit its field or is no kind, which the library never gives.
pub fn letter(record: &Record) -> Option<Letter> {
    let other = Incarnation(u32::try_from(record.other).ok()?);
    let attempt = Attempt(u32::try_from(record.attempt).ok()?);
    let incarnation = Incarnation(u32::try_from(record.incarnation).ok()?);
    let item = to_item(record.item);
    let message = match record.kind {
        1 => Message::Store { attempt, item },
        2 => Message::Stored { other, attempt, item },
        3 => Message::Confirm { other, attempt, item },
        4 => Message::Confirmed { other, attempt, item },
        5 => Message::Fetch,
        6 => Message::Table { other, rows: record.rows.map(to_item) },
        _ => return None,
    };
    let sender = u8::try_from(record.sender).ok()?;
    let addressee = u8::try_from(record.addressee).ok()?;
    Some(Letter { sender, addressee, incarnation, message })
}

/// The numbers of a letter, with next 0.
pub fn record(letter: &Letter) -> Record {
    let mut record = Record {
        sender: letter.sender.into(),
        addressee: letter.addressee.into(),
        incarnation: letter.incarnation.0.into(),
        ..Record::default()
    };
    match letter.message {
        Message::Store { attempt, item } => fill(&mut record, 1, Incarnation(0), attempt, item),
        Message::Stored { other, attempt, item } => fill(&mut record, 2, other, attempt, item),
        Message::Confirm { other, attempt, item } => fill(&mut record, 3, other, attempt, item),
        Message::Confirmed { other, attempt, item } => fill(&mut record, 4, other, attempt, item),
        Message::Fetch => record.kind = 5,
        Message::Table { other, rows } => {
            record.kind = 6;
            record.other = other.0.into();
            record.rows = rows.map(from_item);
        }
    }
    record
}

fn fill(record: &mut Record, kind: u64, other: Incarnation, attempt: Attempt, item: Item) {
    record.kind = kind;
    record.other = other.0.into();
    record.attempt = attempt.0.into();
    record.item = from_item(item);
}

fn to_item(item: yagvost::Item) -> Item {
    Item { index: Index(item.index), tag: item.tag }
}

fn from_item(item: Item) -> yagvost::Item {
    yagvost::Item { index: item.index.0, tag: item.tag }
}
