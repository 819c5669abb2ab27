//! One record's bytes, kind by kind, written by hand.

use baseline::layout::{read_record, write_record, Fault, Letter, Message, RECORD_BYTES};
use baseline::{Attempt, Incarnation, Index, Item, MAX_NODES};

const ITEM: Item = Item { index: Index(0x0102_0304_0506_0708), tag: 0x1112_1314_1516_1718 };
const ITEM_BYTES: [u8; 16] = [8, 7, 6, 5, 4, 3, 2, 1, 24, 23, 22, 21, 20, 19, 18, 17];
const OTHER: Incarnation = Incarnation(0x2122_2324);
const ATTEMPT: Attempt = Attempt(0x3132_3334);

/// From node 2 under incarnation 0x41424344 to node 1.
fn letter(message: Message) -> Letter {
    Letter { sender: 2, addressee: 1, incarnation: Incarnation(0x4142_4344), message }
}

fn bytes(kind: u8, other: [u8; 4], attempt: [u8; 4], item: [u8; 16]) -> Vec<u8> {
    let start: [&[u8]; 4] = [&[0, 0, kind, 0x21, 0x44, 0x43, 0x42, 0x41], &other, &attempt, &item];
    let mut record = start.concat();
    record.resize(RECORD_BYTES, 0);
    record
}

/// Written over anything, these bytes come out; read, the letter.
fn check(message: Message, n: u8, expected: &[u8]) {
    let mut record = vec![0xff; RECORD_BYTES];
    write_record(&mut record, &letter(message), n).unwrap();
    assert_eq!(record, expected);
    assert_eq!(read_record(&record, n), Ok(letter(message)));
}

const OTHER_BYTES: [u8; 4] = [0x24, 0x23, 0x22, 0x21];
const ATTEMPT_BYTES: [u8; 4] = [0x34, 0x33, 0x32, 0x31];

#[test]
fn store() {
    let message = Message::Store { attempt: ATTEMPT, item: ITEM };
    check(message, 3, &bytes(1, [0; 4], ATTEMPT_BYTES, ITEM_BYTES));
}

#[test]
fn stored() {
    let message = Message::Stored { other: OTHER, attempt: ATTEMPT, item: ITEM };
    check(message, 3, &bytes(2, OTHER_BYTES, ATTEMPT_BYTES, ITEM_BYTES));
}

#[test]
fn confirm() {
    let message = Message::Confirm { other: OTHER, attempt: ATTEMPT, item: ITEM };
    check(message, 3, &bytes(3, OTHER_BYTES, ATTEMPT_BYTES, ITEM_BYTES));
}

#[test]
fn confirmed() {
    let message = Message::Confirmed { other: OTHER, attempt: ATTEMPT, item: ITEM };
    check(message, 3, &bytes(4, OTHER_BYTES, ATTEMPT_BYTES, ITEM_BYTES));
}

#[test]
fn fetch() {
    check(Message::Fetch, 3, &bytes(5, [0; 4], [0; 4], [0; 16]));
}

#[test]
fn table() {
    let mut rows = [Item::ZERO; MAX_NODES];
    rows[0] = ITEM;
    rows[4] = Item { index: Index(1), tag: 65 };
    let mut expected = bytes(6, OTHER_BYTES, [0; 4], [0; 16]);
    expected[32..48].copy_from_slice(&ITEM_BYTES);
    expected[96] = 1;
    expected[104] = 65;
    check(Message::Table { other: OTHER, rows }, 5, &expected);
    assert_eq!(read_record(&expected, 3), Err(Fault::StrayByte));
}

#[test]
fn lengths_and_kinds() {
    let fetch = bytes(5, [0; 4], [0; 4], [0; 16]);
    assert_eq!(read_record(&fetch[1..], 3), Err(Fault::Length));
    assert_eq!(read_record(&[fetch.clone(), vec![0]].concat(), 3), Err(Fault::Length));
    assert_eq!(read_record(&[], 3), Err(Fault::Length));
    for kind in [0, 7, 8, 255] {
        assert_eq!(read_record(&bytes(kind, [0; 4], [0; 4], [0; 16]), 3), Err(Fault::Kind));
    }
    let mut short = [9; RECORD_BYTES - 1];
    assert_eq!(write_record(&mut short, &letter(Message::Fetch), 3), Err(Fault::Length));
    assert_eq!(short, [9; RECORD_BYTES - 1]);
}
