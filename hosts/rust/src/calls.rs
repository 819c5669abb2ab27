//! The library's functions, and the only unsafe code: each slice goes over as
//! its pointer and its length.

#![allow(unsafe_code)]

use crate::Record;

/// How many numbers a record has: `Record` is as many words in this order.
const NUMBERS: usize = 39;
const _: () = assert!(size_of::<Record>() == NUMBERS * size_of::<u64>());

extern "C" {
    fn yagvost_run_script(
        script: *const u8,
        script_length: usize,
        out: *mut u8,
        out_length: usize,
    ) -> usize;

    fn yagvost_is_sound(store: *const u8, length: usize, n: u64) -> bool;

    fn yagvost_read_record(
        bytes: *const u8,
        length: usize,
        record: u64,
        n: u64,
        numbers: *mut u64,
        count: usize,
    ) -> bool;

    fn yagvost_write_record(
        bytes: *mut u8,
        length: usize,
        record: u64,
        n: u64,
        numbers: *const u64,
        count: usize,
    ) -> bool;
}

/// How many bytes were printed; `usize::MAX` if there was no room.
pub fn run_script(script: &[u8], out: &mut [u8]) -> usize {
    // SAFETY: both slices are valid for their lengths, and as one of them is
    // borrowed mutably they do not overlap. The function touches nothing else.
    unsafe { yagvost_run_script(script.as_ptr(), script.len(), out.as_mut_ptr(), out.len()) }
}

pub fn is_sound(store: &[u8], n: u64) -> bool {
    // SAFETY: the slice is valid for its length, and is only read.
    unsafe { yagvost_is_sound(store.as_ptr(), store.len(), n) }
}

pub fn read_record(bytes: &[u8], record: u64, n: u64, numbers: &mut Record) -> bool {
    let (from, to) = (bytes.as_ptr(), std::ptr::from_mut(numbers).cast());
    // SAFETY: both are valid for the lengths given, and do not overlap.
    unsafe { yagvost_read_record(from, bytes.len(), record, n, to, NUMBERS) }
}

pub fn write_record(bytes: &mut [u8], record: u64, n: u64, numbers: &Record) -> bool {
    let (to, from) = (bytes.as_mut_ptr(), std::ptr::from_ref(numbers).cast());
    // SAFETY: both are valid for the lengths given, and do not overlap.
    unsafe { yagvost_write_record(to, bytes.len(), record, n, from, NUMBERS) }
}
