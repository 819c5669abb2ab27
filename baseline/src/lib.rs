//! A rollback counter kept by a group of nodes, written from document 01 alone.
//!
//! The modules build on one another in this order: `layout` reads and writes one
//! message record, `store` keeps 240 of them on chains, `node` decides what one
//! node does, `group` joins a table of nodes with a store, and `drill` runs a
//! script of calls.

#![forbid(unsafe_code)]

pub mod drill;
pub mod group;
pub mod layout;
pub mod node;
pub mod store;

/// The greatest number of nodes in a group, and the number of rows a node keeps.
pub const MAX_NODES: usize = 15;

/// A group has an odd number of nodes, 3 to 15.
pub const fn is_group_size(n: u64) -> bool {
    n >= 3 && n <= MAX_NODES as u64 && n % 2 == 1
}

/// The counter a node's writes move on.
#[derive(Clone, Copy, Debug, Default, PartialEq, Eq, PartialOrd, Ord)]
pub struct Index(pub u64);

/// How often a node was started, the set up included.
#[derive(Clone, Copy, Debug, Default, PartialEq, Eq, PartialOrd, Ord)]
pub struct Incarnation(pub u32);

/// How often a node sent out an item in its present incarnation.
#[derive(Clone, Copy, Debug, Default, PartialEq, Eq, PartialOrd, Ord)]
pub struct Attempt(pub u32);

/// An index with the tag written under it.
#[derive(Clone, Copy, Debug, Default, PartialEq, Eq)]
pub struct Item {
    pub index: Index,
    pub tag: u64,
}

impl Item {
    pub const ZERO: Item = Item { index: Index(0), tag: 0 };
}

/// What an accepted call answers.
#[derive(Clone, Copy, Debug, PartialEq, Eq)]
pub enum Answer {
    Ok,
    /// A write is over: f peers confirmed this item.
    Settled(Item),
    /// A restarted node is up again with this item.
    Accepted(Item),
    /// Two tables disagreed on this row; the node is down again.
    Stopped(u8),
}

/// Why a call was refused, with document 01's numbers.
#[derive(Clone, Copy, Debug, PartialEq, Eq)]
#[repr(u8)]
pub enum Refusal {
    /// Set up: not a group size, or the table has another length.
    GroupSize = 1,
    /// The store has not 65,280 bytes.
    StoreLength = 2,
    /// Store or table unsound.
    Unsound = 3,
    /// No node of this number.
    NoSuchNode = 4,
    /// The node's phase or stage does not allow the call.
    WrongStage = 5,
    /// A counter that would rise is at its largest.
    CounterFull = 6,
    /// Too few free records for what would be sent.
    NoRoom = 7,
    /// The record is not on an inbox chain.
    NotInInbox = 8,
    /// The addressee's stage does not take this kind of message.
    NotTaken = 9,
    /// The message belongs to an earlier incarnation, attempt or item.
    Stale = 10,
    /// The sender is counted already.
    Counted = 11,
    /// The index is below the row's.
    LowerIndex = 12,
    /// The index is the row's, the tag is another.
    OtherTag = 13,
}

impl Refusal {
    /// Document 01's number of this refusal.
    pub const fn number(self) -> u8 {
        self as u8
    }
}
