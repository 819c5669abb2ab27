//! What two implementations are compared and raced on.

use baseline::layout::{self, Letter};
use baseline::{drill, store};

/// One implementation of document 01, by what it can be asked.
pub trait Contender {
    /// Run a script; the answers are added to `out`.
    fn run_script(&mut self, script: &[u8], out: &mut Vec<u8>);

    /// Are these bytes a sound store of n nodes?
    fn is_sound(&mut self, store: &[u8], n: u8) -> bool;

    /// The letter in a record of a group of n, or nothing if it is a fault.
    fn read_record(&mut self, record: &[u8], n: u8) -> Option<Letter>;

    /// Write a letter over the bytes; false, and no byte changed, if they are
    /// not 272.
    fn write_record(&mut self, bytes: &mut [u8], letter: &Letter, n: u8) -> bool;
}

/// The baseline as a contender.
pub struct Baseline;

impl Contender for Baseline {
    fn run_script(&mut self, script: &[u8], out: &mut Vec<u8>) {
        drill::run(script, out);
    }

    fn is_sound(&mut self, store: &[u8], n: u8) -> bool {
        store::is_sound_for(store, n)
    }

    fn read_record(&mut self, record: &[u8], n: u8) -> Option<Letter> {
        layout::read_record(record, n).ok()
    }

    fn write_record(&mut self, bytes: &mut [u8], letter: &Letter, n: u8) -> bool {
        layout::write_record(bytes, letter, n).is_ok()
    }
}
