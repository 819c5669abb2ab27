//! Document 01's checked examples, by letter, and the unlettered one.

use baseline::group::{self, Call};
use baseline::layout::{Letter, Message, Rows};
use baseline::node::{Node, Phase, Stage};
use baseline::store::{Store, STORE_BYTES};
use baseline::{Answer, Attempt, Incarnation, Index, Item, Refusal, MAX_NODES};

fn blank_table(n: usize) -> Vec<Node> {
    vec![Node::down(0, 0, Incarnation(0)); n]
}

fn new_group(n: u8) -> (Vec<Node>, Vec<u8>) {
    let (mut nodes, mut store) = (blank_table(n.into()), vec![0; STORE_BYTES]);
    assert_eq!(group::set_up(n.into(), &mut nodes, &mut store), Ok(Answer::Ok));
    (nodes, store)
}

fn item(index: u64, tag: u64) -> Item {
    Item { index: Index(index), tag }
}

fn put(store: &mut [u8], sender: u8, addressee: u8, message: Message) {
    let letter = Letter { sender, addressee, incarnation: Incarnation(1), message };
    Store::open(store).unwrap().put(&letter).unwrap();
}

fn write(node: u64, tag: u64) -> Call {
    Call::Write { node, tag }
}

fn deliver(record: u64) -> Call {
    Call::Deliver { record }
}

#[test]
fn a_to_c_group_sizes() {
    for n in 0..20 {
        let (mut nodes, mut store) = (blank_table(n), vec![7; STORE_BYTES]);
        let answer = group::set_up(n as u64, &mut nodes, &mut store);
        let valid = [3, 5, 7, 9, 11, 13, 15].contains(&n);
        assert_eq!(answer, if valid { Ok(Answer::Ok) } else { Err(Refusal::GroupSize) });
        if !valid {
            assert!(store.iter().all(|byte| *byte == 7));
        }
    }
}

#[test]
fn set_up_wants_a_table_of_n() {
    for length in [2, 4] {
        let (mut nodes, mut store) = (blank_table(length), vec![0; STORE_BYTES - 1]);
        assert_eq!(group::set_up(3, &mut nodes, &mut store), Err(Refusal::GroupSize));
    }
}

#[test]
fn d_store_one_byte_short() {
    let (mut nodes, mut store) = new_group(3);
    store.pop();
    let nodes_before = nodes.clone();
    assert_eq!(group::set_up(3, &mut nodes, &mut store), Err(Refusal::StoreLength));
    assert_eq!(group::perform(&mut nodes, &mut store, write(0, 65)), Err(Refusal::StoreLength));
    assert_eq!(nodes, nodes_before);
}

#[test]
fn e_nothing_to_deliver() {
    let (mut nodes, mut store) = new_group(3);
    assert_eq!(group::perform(&mut nodes, &mut store, deliver(1)), Err(Refusal::NotInInbox));
}

#[test]
fn f_a_second_write() {
    let (mut nodes, mut store) = new_group(3);
    assert_eq!(group::perform(&mut nodes, &mut store, write(0, 65)), Ok(Answer::Ok));
    assert_eq!(group::perform(&mut nodes, &mut store, write(0, 65)), Err(Refusal::WrongStage));
}

#[test]
fn g_start_while_up() {
    let (mut nodes, mut store) = new_group(3);
    let start = Call::Start { node: 0 };
    assert_eq!(group::perform(&mut nodes, &mut store, start), Err(Refusal::WrongStage));
}

#[test]
fn h_stored_again_after_the_stage() {
    let (mut nodes, mut store) = new_group(3);
    for call in [write(0, 65), deliver(1), deliver(3)] {
        assert_eq!(group::perform(&mut nodes, &mut store, call), Ok(Answer::Ok));
    }
    assert_eq!(group::perform(&mut nodes, &mut store, deliver(3)), Err(Refusal::NotTaken));
}

#[test]
fn i_same_index_other_tag() {
    let (mut nodes, mut store) = new_group(3);
    nodes[1].rows[0].item = item(1, 66);
    put(&mut store, 0, 1, Message::Store { attempt: Attempt(1), item: item(1, 65) });
    assert_eq!(group::perform(&mut nodes, &mut store, deliver(1)), Err(Refusal::OtherTag));
}

/// Node 0 of three is Fetching and gets these two items in row 2.
fn two_tables(first: Item, second: Item) -> (Result<Answer, Refusal>, Node) {
    let (mut nodes, mut store) = new_group(3);
    for call in [Call::Crash { node: 0 }, Call::Start { node: 0 }] {
        assert_eq!(group::perform(&mut nodes, &mut store, call), Ok(Answer::Ok));
    }
    for (sender, row) in [(1, first), (2, second)] {
        let mut rows: Rows = [Item::ZERO; MAX_NODES];
        rows[2] = row;
        put(&mut store, sender, 0, Message::Table { other: Incarnation(2), rows });
    }
    assert_eq!(group::perform(&mut nodes, &mut store, deliver(3)), Ok(Answer::Ok));
    (group::perform(&mut nodes, &mut store, deliver(4)), nodes[0])
}

#[test]
fn j_tables_that_part() {
    let (answer, node) = two_tables(item(7, 1), item(7, 2));
    assert_eq!(answer, Ok(Answer::Stopped(2)));
    assert_eq!(node, Node::down(0, 3, Incarnation(2)));
    let (answer, node) = two_tables(item(7, 1), item(6, 2));
    assert_eq!(answer, Ok(Answer::Ok));
    assert_eq!(node.phase, Phase::Returning(Stage::Storing));
    assert_eq!(node.rows[2].item, item(7, 1));
    assert_eq!((node.attempt, node.rows[0].attempt), (Attempt(1), Attempt(1)));
    assert_eq!(node.rows[0].incarnation, Incarnation(2));
}

#[test]
fn the_first_table_is_taken_whole() {
    assert_eq!(two_tables(item(0, 9), item(0, 0)).0, Ok(Answer::Stopped(2)));
    assert_eq!(two_tables(item(0, 9), item(1, 0)).0, Ok(Answer::Ok));
    assert_eq!(two_tables(item(0, 9), item(0, 9)).0, Ok(Answer::Ok));
}

#[test]
fn unlettered_free_records_for_a_write() {
    for (free, answer) in [(13, Err(Refusal::NoRoom)), (14, Ok(Answer::Ok))] {
        let (mut nodes, mut store) = new_group(15);
        for _ in free..239 {
            put(&mut store, 1, 2, Message::Fetch);
        }
        let before = (nodes.clone(), store.clone());
        assert_eq!(baseline::store::free_count(&store), Some(free));
        assert_eq!(group::perform(&mut nodes, &mut store, write(0, 65)), answer);
        assert_eq!(answer.is_err(), (nodes, store) == before);
    }
}
