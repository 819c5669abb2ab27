//! The wrapper: the scope document's script, an empty store, one record of
//! each kind, and lengths that do not fit.

use yagvost::*;

const SIXTEEN: &[u8] =
    b"n 3\nw 0 65\nd 1\nd 3\nd 4\nd 5\nc 0\ns 0\nd 6\nd 7\nd 8\nd 9\nd 10\nd 12\nd 13\nd 14\n";

/// A store of n nodes without messages: free chain 1, 2, .. 239.
fn empty_store(n: u8) -> Vec<u8> {
    let mut store = vec![0; STORE_BYTES];
    for (record, next) in store.chunks_exact_mut(RECORD_BYTES).zip(1..RECORDS as u8) {
        record[0] = next;
    }
    store[2] = n;
    store
}

/// A message of this kind, with every number in use at its largest.
fn largest(kind: u64) -> Record {
    let most = Item { index: u64::MAX, tag: u64::MAX };
    let is_answer = [2, 3, 4, 6].contains(&kind);
    let has_item = kind <= 4;
    Record {
        next: u16::MAX.into(),
        kind,
        sender: 15,
        addressee: 15,
        incarnation: u32::MAX.into(),
        other: if is_answer { u32::MAX.into() } else { 0 },
        attempt: if has_item { u32::MAX.into() } else { 0 },
        item: if has_item { most } else { Item::default() },
        rows: [if kind == 6 { most } else { Item::default() }; ROWS],
    }
}

#[test]
fn sixteen_lines() {
    let expected: String = (1..=16)
        .map(|count| match count {
            6 => "6 settled 1 65\n".to_string(),
            16 => "16 accepted 1 65\n".to_string(),
            _ => format!("{count} ok\n"),
        })
        .collect();
    assert_eq!(String::from_utf8(run_script(SIXTEEN)).unwrap(), expected);
}

#[test]
fn scripts_at_the_ends_of_lengths() {
    assert_eq!(run_script(b""), b"");
    assert_eq!(run_script(b"n 3"), b"1 unread\n");
    assert_eq!(run_script_into(b"n 3\n", &mut []), None);
    assert_eq!(run_script_into(b"n 3\n", &mut vec![0; room_for(b"n 3\n")]), Some(5));
}

#[test]
fn soundness() {
    for n in [3, 5, 7, 9, 11, 13, 15] {
        let mut store = empty_store(n);
        assert!(is_sound(&store, n.into()));
        assert!(!is_sound(&store, u64::from(n) + 2) && !is_sound(&store, u64::MAX));
        assert!(!is_sound(&store[1..], n.into()) && !is_sound(&[], n.into()));
        store.push(0);
        assert!(!is_sound(&store, n.into()));
    }
    assert!(!is_sound(&empty_store(4), 4));
}

#[test]
fn records_of_every_kind_come_back() {
    for kind in 1..=6 {
        let message = largest(kind);
        let mut bytes = vec![0xa5; 3 * RECORD_BYTES + 1];
        assert!(write_record(&mut bytes, 1, 15, &message));
        assert_eq!(read_record(&bytes, 1, 15), Some(message), "kind {kind}");
        let around = bytes[..RECORD_BYTES].iter().chain(&bytes[2 * RECORD_BYTES..]);
        assert!(around.into_iter().all(|byte| *byte == 0xa5));
    }
}

#[test]
fn records_that_are_not_there() {
    let mut bytes = vec![0; 2 * RECORD_BYTES - 1];
    assert!(write_record(&mut bytes, 0, 3, &largest(5)));
    let before = bytes.clone();
    for record in [1, 2, 1 << 32, u64::MAX / 272, u64::MAX] {
        assert_eq!(read_record(&bytes, record, 3), None);
        assert!(!write_record(&mut bytes, record, 3, &largest(1)));
    }
    assert_eq!(bytes, before);
    assert_eq!(read_record(&[], 0, 3), None);
}

#[test]
fn numbers_that_no_record_has() {
    let one = Item { index: 0, tag: 1 };
    let mut rows = [Item::default(); ROWS];
    rows[3] = one;
    let wrong = [
        Record { kind: 0, ..largest(1) },
        Record { kind: 7, ..largest(1) },
        Record { kind: 257, ..largest(1) },
        Record { next: 1 << 16, ..largest(1) },
        Record { sender: 16, ..largest(2) },
        Record { addressee: 16, ..largest(3) },
        Record { incarnation: 1 << 32, ..largest(4) },
        Record { other: 1 << 32, ..largest(4) },
        Record { attempt: 1 << 32, ..largest(4) },
        Record { other: 1, ..largest(1) },
        Record { item: one, ..largest(5) },
        Record { rows, ..largest(2) },
        Record { rows, ..largest(6) },
    ];
    let mut bytes = vec![0xa5; RECORD_BYTES];
    for message in wrong {
        assert!(!write_record(&mut bytes, 0, 3, &message), "{message:?}");
    }
    assert_eq!(bytes, [0xa5; RECORD_BYTES]);
}
