//! Compares the proved library with the baseline, which was written from the
//! scope document alone, and races the two.
//!
//! `scripts` makes scripts, stores and records from a seed, and `chains` makes
//! stores with chains of any order. `contender` is what an implementation is
//! asked, `linked` asks the library, and `program` runs a drill program.
//! `compare` asks two the same, `smallest` makes a script on which they part
//! small, `search` does so for many inputs, `census` counts what these reached,
//! and `report` prints a difference. `timing` times both in turn.

#![forbid(unsafe_code)]

pub mod census;
pub mod chains;
pub mod compare;
pub mod contender;
pub mod linked;
pub mod program;
pub mod report;
pub mod scripts;
pub mod search;
pub mod smallest;
pub mod timing;

/// The sizes a group may have.
pub const SIZES: [u8; 7] = [3, 5, 7, 9, 11, 13, 15];

/// The six kinds of message, from kind 1 on.
pub const KINDS: [&str; 6] = ["Store", "Stored", "Confirm", "Confirmed", "Fetch", "Table"];
