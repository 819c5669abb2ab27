//! One node: what it keeps, when that is sound, and everything it decides.
//!
//! Each decision takes the number of free records and either refuses, leaving
//! the node as it was, or changes the node and says what is to be sent. The
//! decisions are for sound nodes only; `group` is the way to them.

use crate::layout::{Letter, Message, Rows};
use crate::Refusal::{self, *};
use crate::{is_group_size, Answer, Attempt, Incarnation, Index, Item, MAX_NODES};

/// Where the node's own write stands.
#[derive(Clone, Copy, Debug, PartialEq, Eq)]
pub enum Stage {
    Idle,
    Storing,
    Confirming,
}

#[derive(Clone, Copy, Debug, PartialEq, Eq)]
pub enum Phase {
    Down,
    /// Gathering tables after a start.
    Fetching,
    /// Writing back its own item after a start.
    Returning(Stage),
    Up(Stage),
}

/// One node's item as last stored here, with the writer's counters of then;
/// these are zero if the row was set up or rebuilt.
#[derive(Clone, Copy, Debug, Default, PartialEq, Eq)]
pub struct Row {
    pub item: Item,
    pub incarnation: Incarnation,
    pub attempt: Attempt,
}

impl Row {
    pub const ZERO: Row =
        Row { item: Item::ZERO, incarnation: Incarnation(0), attempt: Attempt(0) };
}

/// Some peers, each with the incarnation it answered under.
#[derive(Clone, Copy, Debug, Default, PartialEq, Eq)]
pub struct Peers {
    /// A bit for each node number.
    pub members: u16,
    /// Zero for those that are no members.
    pub incarnations: [Incarnation; MAX_NODES],
}

impl Peers {
    pub const NONE: Peers = Peers { members: 0, incarnations: [Incarnation(0); MAX_NODES] };

    pub fn contains(&self, peer: u8) -> bool {
        self.members & bit(peer) != 0
    }

    pub fn len(&self) -> usize {
        self.members.count_ones() as usize
    }

    pub fn is_empty(&self) -> bool {
        self.members == 0
    }

    pub fn add(&mut self, peer: u8, incarnation: Incarnation) {
        self.members |= bit(peer);
        self.incarnations[usize::from(peer)] = incarnation;
    }

    /// Are all members in `allowed`, and the others' incarnations zero?
    fn is_within(&self, allowed: u16) -> bool {
        let stray = |peer: usize| self.members >> peer & 1 == 0 && self.incarnations[peer].0 != 0;
        self.members & !allowed == 0 && !(0..MAX_NODES).any(stray)
    }
}

/// A node's whole state. Whatever its stage has no use for is zero.
#[derive(Clone, Copy, Debug, PartialEq, Eq)]
pub struct Node {
    pub number: u8,
    pub n: u8,
    pub phase: Phase,
    pub incarnation: Incarnation,
    pub attempt: Attempt,
    pub rows: [Row; MAX_NODES],
    /// The peers counted in the present stage.
    pub counted: Peers,
    /// While Confirming, the f peers asked.
    pub asked: Peers,
    /// While Fetching, a bit for each row whose greatest index came with two
    /// tags.
    pub marks: u16,
}

/// What an accepted decision has the node send.
#[derive(Clone, Copy, Debug, PartialEq, Eq)]
pub enum Sending {
    Nothing,
    /// This message to every other node.
    ToOthers(Message),
    /// Confirm to each of the peers asked, under its own incarnation.
    ConfirmToAsked,
    /// An answer to one node.
    Reply(u8, Message),
}

/// An accepted decision: the answer, and what is to be sent.
pub type Decision = (Answer, Sending);

impl Node {
    /// A node that is down: only number, n and incarnation remain.
    pub const fn down(number: u8, n: u8, incarnation: Incarnation) -> Node {
        Node {
            number,
            n,
            phase: Phase::Down,
            incarnation,
            attempt: Attempt(0),
            rows: [Row::ZERO; MAX_NODES],
            counted: Peers::NONE,
            asked: Peers::NONE,
            marks: 0,
        }
    }

    /// A node as the group's set up makes it.
    pub const fn set_up(number: u8, n: u8) -> Node {
        Node { phase: Phase::Up(Stage::Idle), ..Node::down(number, n, Incarnation(1)) }
    }

    /// The number of faults a group of n = 2f + 1 nodes bears.
    pub fn f(&self) -> usize {
        usize::from(self.n / 2)
    }

    /// Every other node of the group, a bit for each.
    pub fn others(&self) -> u16 {
        below(self.n) & !bit(self.number)
    }

    pub fn own_item(&self) -> Item {
        self.rows[usize::from(self.number)].item
    }

    /// Is this a sound node number `place` of a group of n?
    pub fn is_sound_at(&self, place: usize, n: u8) -> bool {
        is_group_size(n.into())
            && self.n == n
            && usize::from(self.number) == place
            && place < usize::from(n)
            && self.rows[usize::from(n)..].iter().all(|row| *row == Row::ZERO)
            && self.counted.is_within(self.others())
            && self.asked.is_within(self.others())
            && self.fits_phase()
    }

    /// Is everything the phase has no use for zero, and are counted and asked
    /// as many as it allows?
    fn fits_phase(&self) -> bool {
        let (counted, asked) = (self.counted.len(), self.asked.len());
        match self.phase {
            Phase::Down => {
                let kept = Node::down(self.number, self.n, self.incarnation);
                *self == kept
            }
            Phase::Fetching => {
                let blank = |row: &Row| row.incarnation.0 == 0 && row.attempt.0 == 0;
                let untouched = || self.marks == 0 && self.rows.iter().all(|row| *row == Row::ZERO);
                self.attempt.0 == 0
                    && counted <= self.f()
                    && asked == 0
                    && self.marks & !below(self.n) == 0
                    && self.rows.iter().all(blank)
                    && (counted > 0 || untouched())
            }
            Phase::Returning(stage) | Phase::Up(stage) => {
                let sizes = match stage {
                    Stage::Idle => counted == 0 && asked == 0,
                    Stage::Storing => counted < self.f() && asked == 0,
                    Stage::Confirming => counted < self.f() && asked == self.f(),
                };
                sizes
                    && self.marks == 0
                    && (asked == 0 || self.counted.members & !self.asked.members == 0)
            }
        }
    }

    /// Write: begin the next index under this tag.
    pub(crate) fn write(&mut self, tag: u64, free: usize) -> Result<Decision, Refusal> {
        if self.phase != Phase::Up(Stage::Idle) {
            return Err(WrongStage);
        }
        let index = self.own_item().index.0.checked_add(1).ok_or(CounterFull)?;
        let attempt = self.attempt.0.checked_add(1).ok_or(CounterFull)?;
        self.room_for_others(free)?;
        Ok(self.send_out(
            Phase::Up(Stage::Storing),
            Item { index: Index(index), tag },
            Attempt(attempt),
        ))
    }

    /// Retry: send the present requests to all others again.
    pub(crate) fn retry(&mut self, free: usize) -> Result<Decision, Refusal> {
        let storing = match self.phase {
            Phase::Fetching => {
                self.room_for_others(free)?;
                return Ok((Answer::Ok, Sending::ToOthers(Message::Fetch)));
            }
            Phase::Down | Phase::Up(Stage::Idle) | Phase::Returning(Stage::Idle) => {
                return Err(WrongStage);
            }
            Phase::Up(_) => Phase::Up(Stage::Storing),
            Phase::Returning(_) => Phase::Returning(Stage::Storing),
        };
        let attempt = self.attempt.0.checked_add(1).ok_or(CounterFull)?;
        self.room_for_others(free)?;
        Ok(self.send_out(storing, self.own_item(), Attempt(attempt)))
    }

    /// Crash: only number, n and incarnation remain.
    pub(crate) fn crash(&mut self) -> Result<Decision, Refusal> {
        if self.phase == Phase::Down {
            return Err(WrongStage);
        }
        *self = Node::down(self.number, self.n, self.incarnation);
        Ok((Answer::Ok, Sending::Nothing))
    }

    /// Start: ask all others for their tables.
    pub(crate) fn start(&mut self, free: usize) -> Result<Decision, Refusal> {
        if self.phase != Phase::Down {
            return Err(WrongStage);
        }
        let incarnation = self.incarnation.0.checked_add(1).ok_or(CounterFull)?;
        self.room_for_others(free)?;
        self.incarnation = Incarnation(incarnation);
        self.phase = Phase::Fetching;
        Ok((Answer::Ok, Sending::ToOthers(Message::Fetch)))
    }

    /// Take a letter addressed to this node. Refused as 4 if it is not from
    /// another node of the group to this one.
    pub(crate) fn receive(&mut self, letter: &Letter, free: usize) -> Result<Decision, Refusal> {
        let from = letter.sender;
        if letter.addressee != self.number || self.others() & bit(from) == 0 {
            return Err(NoSuchNode);
        }
        match &letter.message {
            Message::Store { attempt, item } => {
                let row = Row { item: *item, incarnation: letter.incarnation, attempt: *attempt };
                self.take_store(from, row, free)
            }
            Message::Stored { other, attempt, item } => {
                let present = self.is_present(*other, *attempt, *item);
                self.take_stored(from, letter.incarnation, present, free)
            }
            Message::Confirm { other, attempt, item } => {
                let row = Row { item: *item, incarnation: letter.incarnation, attempt: *attempt };
                self.take_confirm(from, *other, row, free)
            }
            Message::Confirmed { other, attempt, item } => {
                let present = self.is_present(*other, *attempt, *item);
                self.take_confirmed(from, letter.incarnation, present)
            }
            Message::Fetch => self.take_fetch(from, letter.incarnation, free),
            Message::Table { other, rows } => {
                self.take_table(from, letter.incarnation, *other, rows, free)
            }
        }
    }

    /// A peer's item, for this node to keep in the peer's row.
    fn take_store(&mut self, from: u8, new: Row, free: usize) -> Result<Decision, Refusal> {
        self.must_be_up()?;
        let row = &mut self.rows[usize::from(from)];
        if new.item.index < row.item.index {
            return Err(LowerIndex);
        }
        if new.item.index == row.item.index {
            if new.item.tag != row.item.tag {
                return Err(OtherTag);
            }
            if (new.incarnation, new.attempt) < (row.incarnation, row.attempt) {
                return Err(Stale);
            }
        }
        room(1, free)?;
        *row = new;
        let Row { item, incarnation: other, attempt } = new;
        Ok((Answer::Ok, Sending::Reply(from, Message::Stored { other, attempt, item })))
    }

    /// A peer stored this node's item. The f-th such answer has exactly the f
    /// that answered asked to confirm.
    fn take_stored(
        &mut self,
        from: u8,
        incarnation: Incarnation,
        present: bool,
        free: usize,
    ) -> Result<Decision, Refusal> {
        let confirming = match self.phase {
            Phase::Up(Stage::Storing) => Phase::Up(Stage::Confirming),
            Phase::Returning(Stage::Storing) => Phase::Returning(Stage::Confirming),
            _ => return Err(NotTaken),
        };
        self.must_count(present, from)?;
        let f = self.f();
        if self.counted.len() + 1 < f {
            self.counted.add(from, incarnation);
            return Ok((Answer::Ok, Sending::Nothing));
        }
        room(f, free)?;
        self.asked = std::mem::take(&mut self.counted);
        self.asked.add(from, incarnation);
        self.phase = confirming;
        Ok((Answer::Ok, Sending::ConfirmToAsked))
    }

    /// A peer asks whether this node, in the incarnation that stored the
    /// item, still has it.
    fn take_confirm(
        &mut self,
        from: u8,
        other: Incarnation,
        asked: Row,
        free: usize,
    ) -> Result<Decision, Refusal> {
        self.must_be_up()?;
        if other != self.incarnation || self.rows[usize::from(from)] != asked {
            return Err(Stale);
        }
        room(1, free)?;
        let Row { item, incarnation: other, attempt } = asked;
        Ok((Answer::Ok, Sending::Reply(from, Message::Confirmed { other, attempt, item })))
    }

    /// One of the f peers asked confirmed. With the f-th the write is over.
    fn take_confirmed(
        &mut self,
        from: u8,
        incarnation: Incarnation,
        present: bool,
    ) -> Result<Decision, Refusal> {
        let answer = match self.phase {
            Phase::Up(Stage::Confirming) => Answer::Settled(self.own_item()),
            Phase::Returning(Stage::Confirming) => Answer::Accepted(self.own_item()),
            _ => return Err(NotTaken),
        };
        let was_asked =
            self.asked.contains(from) && self.asked.incarnations[usize::from(from)] == incarnation;
        self.must_count(present && was_asked, from)?;
        if self.counted.len() + 1 < self.f() {
            self.counted.add(from, incarnation);
            return Ok((Answer::Ok, Sending::Nothing));
        }
        self.counted = Peers::NONE;
        self.asked = Peers::NONE;
        self.phase = Phase::Up(Stage::Idle);
        Ok((answer, Sending::Nothing))
    }

    /// A restarted peer asks for this node's table.
    fn take_fetch(&self, from: u8, other: Incarnation, free: usize) -> Result<Decision, Refusal> {
        self.must_be_up()?;
        room(1, free)?;
        let rows = self.rows.map(|row| row.item);
        Ok((Answer::Ok, Sending::Reply(from, Message::Table { other, rows })))
    }

    /// A peer's table. With f + 1 of them the rows are rebuilt and the node
    /// writes its own item back, unless two tables disagree.
    fn take_table(
        &mut self,
        from: u8,
        incarnation: Incarnation,
        other: Incarnation,
        table: &Rows,
        free: usize,
    ) -> Result<Decision, Refusal> {
        if self.phase != Phase::Fetching {
            return Err(NotTaken);
        }
        self.must_count(other == self.incarnation, from)?;
        let marks = self.marks_with(table);
        let is_last = self.counted.len() == self.f();
        if is_last && marks != 0 {
            *self = Node::down(self.number, self.n, self.incarnation);
            return Ok((Answer::Stopped(marks.trailing_zeros() as u8), Sending::Nothing));
        }
        if is_last {
            self.room_for_others(free)?;
        }
        self.merge(table);
        if is_last {
            return Ok(self.send_out(
                Phase::Returning(Stage::Storing),
                self.own_item(),
                Attempt(1),
            ));
        }
        self.marks = marks;
        self.counted.add(from, incarnation);
        Ok((Answer::Ok, Sending::Nothing))
    }

    /// The marks once this table is counted: a row is marked while its
    /// greatest index has come with two tags. The first table marks nothing.
    fn marks_with(&self, table: &Rows) -> u16 {
        if self.counted.is_empty() {
            return 0;
        }
        let mut marks = self.marks;
        for (place, (row, new)) in self.rows.iter().zip(table).enumerate() {
            if new.index > row.item.index {
                marks &= !(1 << place);
            } else if new.index == row.item.index && new.tag != row.item.tag {
                marks |= 1 << place;
            }
        }
        marks
    }

    /// Keep the greatest items; the first table is taken whole.
    fn merge(&mut self, table: &Rows) {
        let first = self.counted.is_empty();
        for (row, new) in self.rows.iter_mut().zip(table) {
            if first || new.index > row.item.index {
                row.item = *new;
            }
        }
    }

    /// Begin Storing this own item under this attempt, with nobody counted.
    fn send_out(&mut self, storing: Phase, item: Item, attempt: Attempt) -> Decision {
        self.phase = storing;
        self.attempt = attempt;
        self.rows[usize::from(self.number)] = Row { item, incarnation: self.incarnation, attempt };
        self.counted = Peers::NONE;
        self.asked = Peers::NONE;
        self.marks = 0;
        (Answer::Ok, Sending::ToOthers(Message::Store { attempt, item }))
    }

    /// Does an answer belong to this node's present request?
    fn is_present(&self, other: Incarnation, attempt: Attempt, item: Item) -> bool {
        other == self.incarnation && attempt == self.attempt && item == self.own_item()
    }

    fn must_be_up(&self) -> Result<(), Refusal> {
        if matches!(self.phase, Phase::Up(_)) {
            Ok(())
        } else {
            Err(NotTaken)
        }
    }

    /// An answer counts if it is for the present request and its sender has
    /// not been counted.
    fn must_count(&self, present: bool, from: u8) -> Result<(), Refusal> {
        if !present {
            return Err(Stale);
        }
        if self.counted.contains(from) {
            Err(Counted)
        } else {
            Ok(())
        }
    }

    fn room_for_others(&self, free: usize) -> Result<(), Refusal> {
        room(self.others().count_ones() as usize, free)
    }
}

fn room(needed: usize, free: usize) -> Result<(), Refusal> {
    if free < needed {
        Err(NoRoom)
    } else {
        Ok(())
    }
}

/// The bit of one node number; none if there is no such number.
const fn bit(number: u8) -> u16 {
    if number < MAX_NODES as u8 {
        1 << number
    } else {
        0
    }
}

/// The bits of all numbers below n.
const fn below(n: u8) -> u16 {
    if n < MAX_NODES as u8 {
        (1 << n) - 1
    } else {
        (1 << MAX_NODES) - 1
    }
}
