//! Soundness of stores, damaged by hand and at every byte, and the chains.

use baseline::layout::{Letter, Message, RECORD_BYTES};
use baseline::store::{self, is_sound, is_sound_for, Store, STORE_BYTES};
use baseline::{Incarnation, Refusal};

fn fetch(sender: u8, addressee: u8) -> Letter {
    Letter { sender, addressee, incarnation: Incarnation(1), message: Message::Fetch }
}

fn empty(n: u8) -> Vec<u8> {
    let mut bytes = vec![0xee; STORE_BYTES];
    store::set_up(&mut bytes, n).unwrap();
    bytes
}

/// Three nodes; node 1 has records 1 and 2, node 2 has 3, free from 4 on.
fn three_messages() -> Vec<u8> {
    let mut bytes = empty(3);
    let mut store = Store::open(&mut bytes).unwrap();
    for letter in [fetch(0, 1), fetch(2, 1), fetch(0, 2)] {
        store.put(&letter).unwrap();
    }
    bytes
}

fn set_u16(bytes: &mut [u8], at: usize, value: u16) {
    bytes[at..at + 2].copy_from_slice(&value.to_le_bytes());
}

fn set_next(bytes: &mut [u8], record: usize, next: u16) {
    set_u16(bytes, record * RECORD_BYTES, next);
}

/// Is a store of three messages unsound after this change?
fn breaks(change: impl FnOnce(&mut Vec<u8>)) -> bool {
    let mut bytes = three_messages();
    assert!(is_sound(&bytes) && is_sound_for(&bytes, 3) && !is_sound_for(&bytes, 5));
    change(&mut bytes);
    !is_sound(&bytes)
}

#[test]
fn set_up_bytes() {
    let mut expected = vec![0; STORE_BYTES];
    for record in 0..239 {
        set_next(&mut expected, record, record as u16 + 1);
    }
    expected[2] = 5;
    assert_eq!(empty(5), expected);
    assert_eq!(store::free_count(&expected), Some(239));
    assert_eq!(store::set_up(&mut expected, 4), Err(Refusal::GroupSize));
    assert_eq!(store::set_up(&mut expected[1..], 3), Err(Refusal::StoreLength));
}

#[test]
fn three_messages_by_hand() {
    let mut expected = empty(3);
    set_u16(&mut expected, 0, 4);
    set_u16(&mut expected, 6, 1);
    set_u16(&mut expected, 8, 3);
    for (record, next, ends) in [(1, 2, 0x01), (2, 0, 0x21), (3, 0, 0x02)] {
        set_next(&mut expected, record, next);
        expected[record * RECORD_BYTES + 2] = 5;
        expected[record * RECORD_BYTES + 3] = ends;
        expected[record * RECORD_BYTES + 4] = 1;
    }
    assert_eq!(three_messages(), expected);
}

#[test]
fn wrong_lengths() {
    assert!(breaks(|bytes| bytes.truncate(STORE_BYTES - 1)));
    assert!(breaks(|bytes| bytes.push(0)));
    assert!(breaks(|bytes| bytes.truncate(STORE_BYTES - RECORD_BYTES)));
    assert!(breaks(|bytes| bytes.extend([0; RECORD_BYTES])));
    assert!(breaks(|bytes| bytes.clear()));
}

#[test]
fn broken_chains() {
    let loops_on_itself = |bytes: &mut Vec<u8>| set_next(bytes, 2, 2);
    let loops_back = |bytes: &mut Vec<u8>| set_next(bytes, 2, 1);
    let free_loop = |bytes: &mut Vec<u8>| set_next(bytes, 239, 4);
    let on_two_chains = |bytes: &mut Vec<u8>| set_u16(bytes, 4, 3);
    let free_and_held = |bytes: &mut Vec<u8>| set_next(bytes, 239, 3);
    let held_and_free = |bytes: &mut Vec<u8>| set_next(bytes, 2, 239);
    let on_none = |bytes: &mut Vec<u8>| set_next(bytes, 1, 0);
    let free_on_none = |bytes: &mut Vec<u8>| set_next(bytes, 238, 0);
    let beyond_the_end = |bytes: &mut Vec<u8>| set_next(bytes, 239, 240);
    let far_beyond = |bytes: &mut Vec<u8>| set_next(bytes, 2, 65535);
    let inbox_beyond = |bytes: &mut Vec<u8>| set_u16(bytes, 4, 240);
    let head_twice = |bytes: &mut Vec<u8>| set_next(bytes, 0, 256);
    for (name, change) in [
        ("loops on itself", &loops_on_itself as &dyn Fn(&mut Vec<u8>)),
        ("loops back", &loops_back),
        ("free loop", &free_loop),
        ("on two chains", &on_two_chains),
        ("free and held", &free_and_held),
        ("held and free", &held_and_free),
        ("on none", &on_none),
        ("free on none", &free_on_none),
        ("beyond the end", &beyond_the_end),
        ("far beyond", &far_beyond),
        ("inbox beyond", &inbox_beyond),
        ("head twice", &head_twice),
    ] {
        assert!(breaks(change), "{name}");
    }
}

#[test]
fn stray_bytes() {
    for head in [3, 10, 11, 33, 34, 271] {
        assert!(breaks(|bytes| bytes[head] = 1), "head {head}");
    }
    for free in [2, 3, 4, 7, 8, 16, 100, 271] {
        assert!(breaks(|bytes| bytes[100 * RECORD_BYTES + free] = 1), "free {free}");
    }
    for unused in [8, 11, 12, 15, 16, 24, 31, 32, 271] {
        assert!(breaks(|bytes| bytes[RECORD_BYTES + unused] = 1), "unused {unused}");
    }
    assert!(!breaks(|bytes| bytes[RECORD_BYTES + 4] = 9), "the sender's incarnation");
}

#[test]
fn wrong_ends_and_sizes() {
    assert!(breaks(|bytes| bytes[RECORD_BYTES + 3] = 0x02), "owner");
    assert!(breaks(|bytes| bytes[RECORD_BYTES + 3] = 0x11), "sender is the addressee");
    assert!(breaks(|bytes| bytes[RECORD_BYTES + 3] = 0x31), "sender not below n");
    assert!(breaks(|bytes| bytes[RECORD_BYTES + 2] = 0), "kind 0");
    assert!(breaks(|bytes| bytes[RECORD_BYTES + 2] = 7), "kind 7");
    for n in [0, 1, 2, 4, 14, 16, 17, 255] {
        assert!(breaks(|bytes| bytes[2] = n), "n {n}");
    }
    assert!(!breaks(|bytes| bytes[2] = 5), "these three messages may be of five nodes");
}

#[test]
fn every_byte_of_a_store() {
    let sound = three_messages();
    let mut bytes = sound.clone();
    for at in 0..STORE_BYTES {
        bytes[at] ^= 128;
        let incarnation =
            (1..=3).contains(&(at / RECORD_BYTES)) && (4..8).contains(&(at % RECORD_BYTES));
        assert_eq!(is_sound(&bytes), incarnation, "byte {at}");
        bytes[at] = sound[at];
    }
}

#[test]
fn a_dropped_record_is_taken_again() {
    let mut bytes = three_messages();
    let mut store = Store::open(&mut bytes).unwrap();
    assert_eq!(store.drop_record(1), Ok(()));
    assert_eq!(store.drop_record(1), Err(Refusal::NotInInbox));
    assert_eq!(store.free(), 237);
    store.put(&fetch(1, 2)).unwrap();
    assert_eq!(store.letter(1), Ok(fetch(1, 2)));
    assert!(is_sound(&bytes));
    assert_eq!([bytes[6], bytes[8], bytes[3 * RECORD_BYTES]], [2, 3, 1]);
}

#[test]
fn drop_first_middle_and_last() {
    for order in [[1, 2, 3], [2, 1, 3], [3, 2, 1], [2, 3, 1], [3, 1, 2], [1, 3, 2]] {
        let mut bytes = empty(3);
        let mut store = Store::open(&mut bytes).unwrap();
        store.put_to_several(0b010, |to| fetch(0, to)).unwrap();
        store.put(&fetch(2, 1)).unwrap();
        store.put(&fetch(0, 1)).unwrap();
        for record in order {
            store.drop_record(record).unwrap();
            assert!(Store::open(&mut bytes).is_ok());
            store = Store::open(&mut bytes).unwrap();
        }
        store.put(&fetch(0, 1)).unwrap();
        assert_eq!(store.letter(order[2]), Ok(fetch(0, 1)));
        assert!(is_sound(&bytes));
    }
}

#[test]
fn records_not_on_an_inbox() {
    let mut bytes = three_messages();
    let before = bytes.clone();
    let mut store = Store::open(&mut bytes).unwrap();
    for record in [0, 4, 239, 240, 65537, 1 << 32 | 1, u64::MAX] {
        assert_eq!(store.drop_record(record), Err(Refusal::NotInInbox));
        assert_eq!(store.letter(record), Err(Refusal::NotInInbox));
    }
    assert_eq!(bytes, before);
}

#[test]
fn put_refuses_without_change() {
    let mut bytes = three_messages();
    for (sender, addressee) in [(1, 1), (3, 1), (0, 3), (0, 15)] {
        let before = bytes.clone();
        let put = Store::open(&mut bytes).unwrap().put(&fetch(sender, addressee));
        assert_eq!(put, Err(Refusal::NoSuchNode));
        assert_eq!(bytes, before);
    }
    for _ in 0..235 {
        Store::open(&mut bytes).unwrap().put(&fetch(0, 1)).unwrap();
    }
    let before = bytes.clone();
    let mut store = Store::open(&mut bytes).unwrap();
    assert_eq!(store.put_to_several(0b110, |to| fetch(0, to)), Err(Refusal::NoRoom));
    assert_eq!(bytes, before);
    Store::open(&mut bytes).unwrap().put(&fetch(0, 1)).unwrap();
    let put = Store::open(&mut bytes).unwrap().put(&fetch(0, 1));
    assert_eq!((put, store::free_count(&bytes)), (Err(Refusal::NoRoom), Some(0)));
}
