//! Soundness of the table, and the decisions a drill cannot reach or does not
//! show: made tables and letters, delivered one at a time.

use baseline::group::{self, is_sound_table, Call};
use baseline::layout::{Letter, Message};
use baseline::node::{Node, Peers, Phase, Row, Stage};
use baseline::store::{free_count, Store, STORE_BYTES};
use baseline::Refusal::*;
use baseline::{Answer, Attempt, Incarnation, Index, Item, Refusal, MAX_NODES};

struct Group {
    nodes: Vec<Node>,
    store: Vec<u8>,
}

impl Group {
    fn new(n: u8) -> Group {
        let mut nodes = vec![Node::down(0, 0, Incarnation(0)); n.into()];
        let mut store = vec![0; STORE_BYTES];
        group::set_up(n.into(), &mut nodes, &mut store).unwrap();
        Group { nodes, store }
    }

    /// Do a call; a refusal must leave every byte.
    fn call(&mut self, call: Call) -> Result<Answer, Refusal> {
        let before = (self.nodes.clone(), self.store.clone());
        let answer = group::perform(&mut self.nodes, &mut self.store, call);
        if answer.is_err() {
            assert!(before == (self.nodes.clone(), self.store.clone()));
        }
        answer
    }

    /// Put a letter under this incarnation of its sender, and deliver it.
    fn letter(
        &mut self,
        ends: (u8, u8),
        incarnation: u32,
        message: Message,
    ) -> Result<Answer, Refusal> {
        let letter = Letter {
            sender: ends.0,
            addressee: ends.1,
            incarnation: Incarnation(incarnation),
            message,
        };
        let record = u16::from_le_bytes([self.store[0], self.store[1]]);
        Store::open(&mut self.store).unwrap().put(&letter).unwrap();
        self.call(Call::Deliver { record: record.into() })
    }

    /// Fill the store up to so many free records.
    fn leave_free(&mut self, free: usize) {
        let fetch = Letter {
            sender: 1,
            addressee: 0,
            incarnation: Incarnation(1),
            message: Message::Fetch,
        };
        while free_count(&self.store).unwrap() > free {
            Store::open(&mut self.store).unwrap().put(&fetch).unwrap();
        }
    }
}

fn item(index: u64, tag: u64) -> Item {
    Item { index: Index(index), tag }
}

fn row(index: u64, tag: u64, incarnation: u32, attempt: u32) -> Row {
    Row { item: item(index, tag), incarnation: Incarnation(incarnation), attempt: Attempt(attempt) }
}

fn peers(members: &[u8]) -> Peers {
    let mut peers = Peers::NONE;
    members.iter().for_each(|peer| peers.add(*peer, Incarnation(1)));
    peers
}

fn store(attempt: u32, index: u64, tag: u64) -> Message {
    Message::Store { attempt: Attempt(attempt), item: item(index, tag) }
}

fn stored(other: u32, attempt: u32, index: u64, tag: u64) -> Message {
    Message::Stored { other: Incarnation(other), attempt: Attempt(attempt), item: item(index, tag) }
}

fn confirm(other: u32, attempt: u32, index: u64, tag: u64) -> Message {
    Message::Confirm {
        other: Incarnation(other),
        attempt: Attempt(attempt),
        item: item(index, tag),
    }
}

fn confirmed(other: u32, attempt: u32, index: u64, tag: u64) -> Message {
    Message::Confirmed {
        other: Incarnation(other),
        attempt: Attempt(attempt),
        item: item(index, tag),
    }
}

/// Is a table of five sound once node 2 has been changed?
fn sound_with(change: impl FnOnce(&mut Node)) -> bool {
    let mut group = Group::new(5);
    assert!(is_sound_table(&group.nodes, 5));
    change(&mut group.nodes[2]);
    let sound = is_sound_table(&group.nodes, 5);
    let answer = group.call(Call::Drop { record: 1 });
    assert_eq!(answer, Err(if sound { NotInInbox } else { Unsound }));
    sound
}

#[test]
fn lengths_and_numbers() {
    let mut group = Group::new(5);
    assert!(!is_sound_table(&group.nodes, 3) && !is_sound_table(&group.nodes[..4], 5));
    group.nodes.pop();
    assert_eq!(group.call(Call::Write { node: 9, tag: 1 }), Err(Unsound));
    assert!(!sound_with(|node| node.number = 3));
    assert!(!sound_with(|node| node.n = 7));
    assert!(!sound_with(|node| node.rows[5].item.tag = 1));
    assert!(sound_with(|node| node.rows[4] = row(0, 9, 0, 7)));
}

#[test]
fn down_and_fetching_keep_little() {
    let down = |change: fn(&mut Node)| {
        sound_with(|node| {
            *node = Node::down(2, 5, Incarnation(8));
            change(node)
        })
    };
    assert!(down(|_| ()) && down(|node| node.phase = Phase::Fetching));
    assert!(!down(|node| node.attempt = Attempt(1)));
    assert!(!down(|node| node.rows[1].item.index = Index(1)));
    assert!(!down(|node| node.counted = peers(&[1])));
    assert!(!down(|node| node.marks = 1));
    let fetching = |counted: &[u8], change: fn(&mut Node)| {
        sound_with(|node| {
            *node = Node::down(2, 5, Incarnation(8));
            node.phase = Phase::Fetching;
            node.counted = peers(counted);
            change(node)
        })
    };
    assert!(fetching(&[1, 3], |node| (node.rows[0].item, node.marks) = (item(0, 3), 0b10001)));
    assert!(!fetching(&[1, 3, 4], |_| ()));
    assert!(!fetching(&[2], |_| ()) && !fetching(&[5], |_| ()));
    assert!(
        !fetching(&[], |node| node.rows[0].item.tag = 1) && !fetching(&[], |node| node.marks = 1)
    );
    assert!(!fetching(&[1], |node| node.marks = 1 << 5));
    assert!(!fetching(&[1], |node| node.rows[1].attempt = Attempt(1)));
    assert!(!fetching(&[1], |node| node.attempt = Attempt(1)));
    assert!(!fetching(&[1], |node| node.asked = peers(&[0, 1])));
}

#[test]
fn counted_and_asked_by_stage() {
    let at = |stage: Stage, counted: &[u8], asked: &[u8]| {
        [Phase::Up(stage), Phase::Returning(stage)].map(|phase| {
            sound_with(|node| {
                (node.phase, node.counted, node.asked) = (phase, peers(counted), peers(asked))
            })
        })
    };
    for (stage, counted, asked, sound) in [
        (Stage::Idle, &[][..], &[][..], true),
        (Stage::Idle, &[1], &[], false),
        (Stage::Idle, &[], &[1, 3], false),
        (Stage::Storing, &[], &[], true),
        (Stage::Storing, &[4], &[], true),
        (Stage::Storing, &[1, 4], &[], false),
        (Stage::Storing, &[2], &[], false),
        (Stage::Storing, &[], &[1, 4], false),
        (Stage::Confirming, &[], &[1, 4], true),
        (Stage::Confirming, &[4], &[1, 4], true),
        (Stage::Confirming, &[3], &[1, 4], false),
        (Stage::Confirming, &[1, 4], &[1, 4], false),
        (Stage::Confirming, &[], &[1], false),
        (Stage::Confirming, &[], &[0, 1, 4], false),
        (Stage::Confirming, &[], &[1, 2], false),
        (Stage::Confirming, &[], &[1, 5], false),
    ] {
        assert_eq!(at(stage, counted, asked), [sound; 2], "{stage:?} {counted:?} {asked:?}");
    }
    assert!(!sound_with(|node| node.counted.incarnations[1] = Incarnation(1)));
    assert!(!sound_with(|node| node.marks = 1));
}

#[test]
fn largest_counters() {
    let mut group = Group::new(3);
    group.nodes[0].rows[0].item.index = Index(u64::MAX);
    group.nodes[1].attempt = Attempt(u32::MAX);
    group.nodes[2] = Node::down(2, 3, Incarnation(u32::MAX));
    assert_eq!(group.call(Call::Write { node: 0, tag: 1 }), Err(CounterFull));
    assert_eq!(group.call(Call::Write { node: 1, tag: 1 }), Err(CounterFull));
    assert_eq!(group.call(Call::Start { node: 2 }), Err(CounterFull));
    group.nodes[0].phase = Phase::Up(Stage::Storing);
    group.nodes[1].phase = Phase::Up(Stage::Storing);
    assert_eq!(group.call(Call::Retry { node: 1 }), Err(CounterFull));
    group.leave_free(2);
    assert_eq!(group.call(Call::Retry { node: 0 }), Ok(Answer::Ok));
    assert_eq!(group.nodes[0].rows[0], row(u64::MAX, 0, 1, 1));
    group.nodes[2].phase = Phase::Fetching;
    assert_eq!(group.call(Call::Retry { node: 2 }), Err(NoRoom));
}

#[test]
fn which_call_at_which_phase() {
    let allowed = |phase: Phase| {
        let calls = [
            Call::Write { node: 0, tag: 1 },
            Call::Retry { node: 0 },
            Call::Crash { node: 0 },
            Call::Start { node: 0 },
        ];
        calls.map(|call| {
            let mut group = Group::new(3);
            group.nodes[0].phase = phase;
            if let Phase::Up(Stage::Confirming) | Phase::Returning(Stage::Confirming) = phase {
                group.nodes[0].asked = peers(&[1]);
            }
            group.call(call).is_ok()
        })
    };
    assert_eq!(allowed(Phase::Down), [false, false, false, true]);
    assert_eq!(allowed(Phase::Fetching), [false, true, true, false]);
    assert_eq!(allowed(Phase::Up(Stage::Idle)), [true, false, true, false]);
    assert_eq!(allowed(Phase::Returning(Stage::Idle)), [false, false, true, false]);
    for stage in [Stage::Storing, Stage::Confirming] {
        assert_eq!(allowed(Phase::Up(stage)), [false, true, true, false]);
        assert_eq!(allowed(Phase::Returning(stage)), [false, true, true, false]);
    }
}

#[test]
fn store_against_its_row() {
    let answer = |incarnation: u32, message: Message| {
        let mut group = Group::new(3);
        group.nodes[0].rows[1] = row(5, 50, 3, 4);
        let answer = group.letter((1, 0), incarnation, message);
        (answer, group.nodes[0].rows[1])
    };
    let kept = row(5, 50, 3, 4);
    assert_eq!(answer(9, store(9, 4, 50)), (Err(LowerIndex), kept));
    assert_eq!(answer(9, store(9, 5, 51)), (Err(OtherTag), kept));
    assert_eq!(answer(1, store(9, 5, 51)), (Err(OtherTag), kept));
    assert_eq!(answer(2, store(9, 5, 50)), (Err(Stale), kept));
    assert_eq!(answer(3, store(3, 5, 50)), (Err(Stale), kept));
    assert_eq!(answer(3, store(4, 5, 50)), (Ok(Answer::Ok), kept));
    assert_eq!(answer(3, store(5, 5, 50)), (Ok(Answer::Ok), row(5, 50, 3, 5)));
    assert_eq!(answer(4, store(0, 5, 50)), (Ok(Answer::Ok), row(5, 50, 4, 0)));
    assert_eq!(answer(1, store(1, 6, 51)), (Ok(Answer::Ok), row(6, 51, 1, 1)));
}

#[test]
fn a_store_is_answered_to_its_sender() {
    let mut group = Group::new(3);
    group.nodes[0].incarnation = Incarnation(6);
    assert_eq!(group.letter((1, 0), 3, store(4, 5, 50)), Ok(Answer::Ok));
    let answer = Store::open(&mut group.store).unwrap().letter(2).unwrap();
    let message = stored(3, 4, 5, 50);
    assert_eq!(answer, Letter { sender: 0, addressee: 1, incarnation: Incarnation(6), message });
}

#[test]
fn stored_counts_once_and_only_for_the_present() {
    let mut group = Group::new(5);
    group.call(Call::Write { node: 0, tag: 65 }).unwrap();
    for message in
        [stored(2, 1, 1, 65), stored(1, 2, 1, 65), stored(1, 1, 2, 65), stored(1, 1, 1, 66)]
    {
        assert_eq!(group.letter((3, 0), 7, message), Err(Stale));
    }
    assert_eq!(group.letter((3, 0), 7, stored(1, 1, 1, 65)), Ok(Answer::Ok));
    assert_eq!(group.letter((3, 0), 8, stored(1, 1, 1, 65)), Err(Counted));
    assert_eq!(group.nodes[0].counted.incarnations[3], Incarnation(7));
    assert_eq!(group.letter((1, 0), 2, stored(1, 1, 1, 65)), Ok(Answer::Ok));
    let node = group.nodes[0];
    assert_eq!((node.phase, node.asked.members), (Phase::Up(Stage::Confirming), 0b01010));
    assert_eq!(
        (node.asked.incarnations[1], node.asked.incarnations[3]),
        (Incarnation(2), Incarnation(7))
    );
    assert!(node.counted.is_empty());
    assert_eq!(group.letter((2, 0), 1, stored(1, 1, 1, 65)), Err(NotTaken));
}

#[test]
fn confirmed_only_by_those_asked() {
    let mut group = Group::new(5);
    let node = &mut group.nodes[0];
    (node.phase, node.asked) = (Phase::Returning(Stage::Confirming), peers(&[1, 3]));
    node.rows[0].item = item(4, 40);
    assert_eq!(group.letter((2, 0), 1, confirmed(1, 0, 4, 40)), Err(Stale));
    assert_eq!(group.letter((3, 0), 2, confirmed(1, 0, 4, 40)), Err(Stale));
    assert_eq!(group.letter((3, 0), 1, confirmed(1, 1, 4, 40)), Err(Stale));
    assert_eq!(group.letter((3, 0), 1, confirmed(1, 0, 4, 40)), Ok(Answer::Ok));
    assert_eq!(group.letter((3, 0), 1, confirmed(1, 0, 4, 40)), Err(Counted));
    assert_eq!(group.letter((3, 0), 2, confirmed(1, 0, 4, 40)), Err(Stale));
    let expected = Node {
        phase: Phase::Up(Stage::Idle),
        counted: Peers::NONE,
        asked: Peers::NONE,
        ..group.nodes[0]
    };
    assert_eq!(group.letter((1, 0), 1, confirmed(1, 0, 4, 40)), Ok(Answer::Accepted(item(4, 40))));
    assert_eq!(group.nodes[0], expected);
}

#[test]
fn confirm_needs_the_incarnation_that_stored() {
    let mut group = Group::new(3);
    group.nodes[0].incarnation = Incarnation(2);
    group.nodes[0].rows[1] = row(5, 50, 3, 4);
    assert_eq!(group.letter((1, 0), 3, confirm(1, 4, 5, 50)), Err(Stale));
    assert_eq!(group.letter((1, 0), 4, confirm(2, 4, 5, 50)), Err(Stale));
    assert_eq!(group.letter((1, 0), 3, confirm(2, 5, 5, 50)), Err(Stale));
    assert_eq!(group.letter((1, 0), 3, confirm(2, 4, 6, 50)), Err(Stale));
    assert_eq!(group.letter((1, 0), 3, confirm(2, 4, 5, 51)), Err(Stale));
    assert_eq!(group.letter((1, 0), 3, confirm(2, 4, 5, 50)), Ok(Answer::Ok));
    let answer = Store::open(&mut group.store).unwrap().letter(7).unwrap();
    assert_eq!(answer.message, confirmed(3, 4, 5, 50));
    group.nodes[0].rows[1] = row(5, 50, 0, 0);
    assert_eq!(group.letter((1, 0), 3, confirm(2, 4, 5, 50)), Err(Stale));
}

#[test]
fn only_up_answers_requests() {
    for phase in [
        Phase::Down,
        Phase::Fetching,
        Phase::Returning(Stage::Idle),
        Phase::Returning(Stage::Storing),
    ] {
        let mut group = Group::new(3);
        group.nodes[0].phase = phase;
        for message in [store(1, 1, 1), confirm(1, 0, 0, 0), Message::Fetch] {
            assert_eq!(group.letter((1, 0), 0, message), Err(NotTaken));
        }
    }
}

#[test]
fn room_comes_last() {
    let mut group = Group::new(3);
    group.nodes[0].rows[1] = row(5, 50, 3, 4);
    group.leave_free(3);
    assert_eq!(group.letter((1, 0), 3, store(4, 4, 50)), Err(LowerIndex));
    assert_eq!(group.letter((1, 0), 3, confirm(2, 4, 5, 50)), Err(Stale));
    assert_eq!(group.letter((1, 0), 3, store(4, 5, 50)), Err(NoRoom));
    assert_eq!(group.call(Call::Deliver { record: 1 }), Err(NoRoom));
}

/// Node 0 of five, Fetching with three tables to come, of which these rows
/// are row 3; the answer to the last, with so many records free.
fn three_tables(items: [Item; 3], free: usize) -> (Result<Answer, Refusal>, Node) {
    let mut group = Group::new(5);
    group.nodes[0] = Node::down(0, 5, Incarnation(2));
    group.nodes[0].phase = Phase::Fetching;
    group.leave_free(free + 3);
    let mut answer = Ok(Answer::Ok);
    for (sender, row) in (1..).zip(items) {
        assert_eq!(answer, Ok(Answer::Ok));
        let mut rows = [Item::ZERO; MAX_NODES];
        rows[3] = row;
        answer = group.letter((sender, 0), 1, Message::Table { other: Incarnation(2), rows });
    }
    (answer, group.nodes[0])
}

#[test]
fn marks_stay_until_a_greater_index() {
    let stopped = Ok(Answer::Stopped(3));
    assert_eq!(three_tables([item(7, 1), item(7, 2), item(7, 1)], 0).0, stopped);
    assert_eq!(three_tables([item(7, 1), item(7, 2), item(6, 1)], 0).0, stopped);
    assert_eq!(three_tables([item(6, 1), item(7, 1), item(7, 2)], 0).0, stopped);
    let (answer, node) = three_tables([item(7, 1), item(7, 2), item(8, 3)], 4);
    assert_eq!((answer, node.marks, node.rows[3]), (Ok(Answer::Ok), 0, row(8, 3, 0, 0)));
    assert_eq!(node.rows[0], row(0, 0, 2, 1));
    let (answer, node) = three_tables([item(7, 1), item(7, 2), item(8, 3)], 3);
    assert_eq!((answer, node.counted.len(), node.marks), (Err(NoRoom), 2, 0b1000));
    assert_eq!(node.rows[3].item, item(7, 1), "the first tag is kept");
}
