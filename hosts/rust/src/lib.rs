//! The proved rollback counter for hosts in Rust: a safe wrapper of the static
//! library that `rt lib` writes in crates/host_api.
//!
//! Lengths are tested here before the library is called, and again by the
//! library itself, which takes slices and numbers of any kind.

#![deny(unsafe_code)]

mod calls;
mod record;

pub use record::{read_record, read_record_into, write_record, Item, Record};

/// The bytes of one record, the records of a store, and the bytes of a store.
pub const RECORD_BYTES: usize = 272;
pub const RECORDS: usize = 240;
pub const STORE_BYTES: usize = RECORD_BYTES * RECORDS;

/// The rows of a record, one for each node number.
pub const ROWS: usize = 15;

/// The room that the library wants before it answers a line.
const LINE_ROOM: usize = 72;

/// The answers to a drill script, run for a group of its own.
pub fn run_script(script: &[u8]) -> Vec<u8> {
    let mut out = vec![0; room_for(script)];
    let printed = run_script_into(script, &mut out).expect("enough room");
    out.truncate(printed);
    out
}

/// As `run_script`, into bytes that the caller lends: how many were printed, or
/// nothing if the bytes are fewer than `room_for` the script.
pub fn run_script_into(script: &[u8], out: &mut [u8]) -> Option<usize> {
    if out.len() < room_for(script) {
        return None;
    }
    let printed = calls::run_script(script, out);
    (printed <= out.len()).then_some(printed)
}

/// Room that is always enough for the answers to a script: 72 bytes for each
/// line feed in it, and once more.
pub fn room_for(script: &[u8]) -> usize {
    let line_feeds = script.iter().filter(|byte| **byte == b'\n').count();
    LINE_ROOM * (line_feeds + 1)
}

/// Are these bytes a sound message store of a group of n nodes?
pub fn is_sound(store: &[u8], n: u64) -> bool {
    store.len() == STORE_BYTES && calls::is_sound(store, n)
}
