//! A group: a lent table of nodes and a lent message store.
//!
//! Every call finds out for itself whether store and table are sound. A refused
//! call changes nothing in either.

use crate::layout::{Letter, Message};
use crate::node::{Decision, Node, Sending};
use crate::store::{self, Store};
use crate::{is_group_size, Answer, Refusal};

/// A call on a group that has been set up. Numbers are 64-bit, whatever a node
/// or record number needs.
#[derive(Clone, Copy, Debug, PartialEq, Eq)]
pub enum Call {
    Write { node: u64, tag: u64 },
    Retry { node: u64 },
    Crash { node: u64 },
    Start { node: u64 },
    Drop { record: u64 },
    Deliver { record: u64 },
}

/// Set up n nodes, all up and idle, and a store without messages. What stood
/// in either before is not looked at.
pub fn set_up(n: u64, nodes: &mut [Node], bytes: &mut [u8]) -> Result<Answer, Refusal> {
    if !is_group_size(n) || nodes.len() as u64 != n {
        return Err(Refusal::GroupSize);
    }
    store::set_up(bytes, n as u8)?;
    for (node, number) in nodes.iter_mut().zip(0..) {
        *node = Node::set_up(number, n as u8);
    }
    Ok(Answer::Ok)
}

/// Is this the sound table of a group of n nodes?
pub fn is_sound_table(nodes: &[Node], n: u8) -> bool {
    let mut places = nodes.iter().enumerate();
    nodes.len() == usize::from(n) && places.all(|(place, node)| node.is_sound_at(place, n))
}

/// Do one call. The answer, or the first refusal in document 01's order.
pub fn perform(nodes: &mut [Node], bytes: &mut [u8], call: Call) -> Result<Answer, Refusal> {
    let mut store = Store::open(bytes)?;
    if !is_sound_table(nodes, store.n()) {
        return Err(Refusal::Unsound);
    }
    let free = store.free();
    let (node, (answer, sending)) = match call {
        Call::Drop { record } => {
            store.drop_record(record)?;
            return Ok(Answer::Ok);
        }
        Call::Deliver { record } => {
            let letter = store.letter(record)?;
            decide(nodes, letter.addressee.into(), |node| node.receive(&letter, free))?
        }
        Call::Write { node, tag } => decide(nodes, node, |node| node.write(tag, free))?,
        Call::Retry { node } => decide(nodes, node, |node| node.retry(free))?,
        Call::Crash { node } => decide(nodes, node, |node| node.crash())?,
        Call::Start { node } => decide(nodes, node, |node| node.start(free))?,
    };
    send(&mut store, node, sending)?;
    Ok(answer)
}

/// Let one node of the table decide; the node as it is then, with the decision.
fn decide(
    nodes: &mut [Node],
    number: u64,
    decision: impl FnOnce(&mut Node) -> Result<Decision, Refusal>,
) -> Result<(&Node, Decision), Refusal> {
    let place = usize::try_from(number).map_err(|_| Refusal::NoSuchNode)?;
    let node = nodes.get_mut(place).ok_or(Refusal::NoSuchNode)?;
    let decided = decision(node)?;
    Ok((node, decided))
}

/// Put what the node sends into the store. The decision made sure of room.
fn send(store: &mut Store, node: &Node, sending: Sending) -> Result<(), Refusal> {
    let (sender, incarnation) = (node.number, node.incarnation);
    match sending {
        Sending::Nothing => Ok(()),
        Sending::Reply(addressee, message) => {
            store.put(&Letter { sender, addressee, incarnation, message })
        }
        Sending::ToOthers(message) => store.put_to_several(node.others(), |addressee| Letter {
            sender,
            addressee,
            incarnation,
            message,
        }),
        Sending::ConfirmToAsked => store.put_to_several(node.asked.members, |addressee| {
            let other = node.asked.incarnations[usize::from(addressee)];
            let (attempt, item) = (node.attempt, node.own_item());
            let message = Message::Confirm { other, attempt, item };
            Letter { sender, addressee, incarnation, message }
        }),
    }
}
