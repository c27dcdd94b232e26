//! Calls on a receiver's record, which later calls take as it was left. Each on
//! an admitted record is made on the crossed line as well.

use std::fmt::{self, Display};

use super::numbers::{Change, Numbers};
use super::step::{Room, Step};
use crate::archive::{short, Calls};
use crate::crossed::{crossed, demanded_fed, demanded_synced, inverted};
use crate::records::{Fed, FeedCall, Receiver, ReceiverSynced};
use crate::reference::calls as slow;

#[derive(Clone, Debug, PartialEq, Eq)]
pub enum ReceiverCall {
    /// No call: the record is replaced.
    Given {
        record: Receiver,
    },
    Fresh,
    Sync,
    /// By the one feeding call or the other.
    Feed {
        call: FeedCall,
        bytes: Vec<u8>,
        room: Room,
    },
}

use ReceiverCall::{Feed, Fresh, Given, Sync};

impl ReceiverCall {
    pub fn name(&self) -> &'static str {
        match self {
            Given { .. } => "record",
            Fresh => "ows_fresh",
            Sync => "ows_receiver_sync",
            Feed { call, .. } => call.name(),
        }
    }

    /// Runs the call; the record becomes what the slow version leaves.
    pub fn run(&self, calls: &Calls, receiver: &mut Receiver, told: bool) -> Step {
        match self {
            Given { record } => {
                *receiver = *record;
                Step::numbers(false, 0, *record, *record)
            }
            Fresh => {
                *receiver = slow::fresh();
                Step::numbers(told, 0, (calls.ows_fresh)(), *receiver)
            }
            Sync => {
                let before = *receiver;
                let answer = (calls.ows_receiver_sync)(before);
                let expected = slow::receiver_sync(before);
                *receiver = expected.receiver;
                let step = Step::numbers(told, expected.refusal, answer, expected);
                match step.same && step.refusal == 0 {
                    true => sync_crossed(step, calls, before, &expected),
                    false => step,
                }
            }
            Feed { call, bytes, room } => {
                let before = *receiver;
                let (mut slots, mut expected_slots) = (room.slots(), room.slots());
                let answer = calls.feed_by(*call, before, bytes, &mut slots);
                let expected = slow::feed(before, bytes, &mut expected_slots);
                *receiver = expected.receiver;
                let answer = answer.map(|answer| (answer, slots));
                let plain = (expected, expected_slots);
                let step = Step::buffer(told, expected.refusal, answer, plain.clone());
                match step.same && step.refusal == 0 {
                    true => feed_crossed(step, calls, (*call, before, bytes, room), plain),
                    false => step,
                }
            }
        }
    }
}

// ---- The crossed line ----

/// A SYNC call with that on the crossed record, where the call gave `plain`.
fn sync_crossed(step: Step, calls: &Calls, before: Receiver, plain: &ReceiverSynced) -> Step {
    let start = crossed(&before);
    let given = (calls.ows_receiver_sync)(start);
    let demanded = demanded_synced([&before, &start], plain, &given.receiver);
    let crossed = Step::numbers(false, 0, given, demanded);
    step.with_crossed(crossed, || format!("{start:?}"))
}

/// A feeding call with that on the crossed line, where the call gave this answer
/// and these slots.
fn feed_crossed(
    step: Step,
    calls: &Calls,
    (call, before, bytes, room): (FeedCall, Receiver, &[u8], &Room),
    (plain, plain_slots): (Fed, Vec<u16>),
) -> Step {
    let (start, line, mut slots) = (crossed(&before), inverted(bytes), room.slots());
    let given = calls.feed_by(call, start, &line, &mut slots);
    let after = given.as_ref().map_or(plain.receiver, |fed| fed.receiver);
    let demanded = (demanded_fed([&before, &start], &plain, &after), plain_slots);
    let crossed = Step::buffer(false, 0, given.map(|fed| (fed, slots)), demanded);
    step.with_crossed(crossed, || format!("{start:?}, bytes {}", short(&line)))
}

impl ReceiverCall {
    /// The record that the first bytes leave, and the call with the others.
    pub fn split(&self, record: Receiver, first: usize) -> [ReceiverCall; 2] {
        let (mut call, mut record) = (self.clone(), record);
        if let Feed { bytes, .. } = &mut call {
            let bytes: Vec<u8> = bytes.drain(..first).collect();
            record = slow::feed(record, &bytes, &mut vec![0; first]).receiver;
        }
        [Given { record }, call]
    }
}

impl Display for ReceiverCall {
    fn fmt(&self, to: &mut fmt::Formatter) -> fmt::Result {
        let name = self.name();
        match self {
            Given { record } => write!(to, "{name} {record:?}"),
            Fresh | Sync => write!(to, "{name}"),
            Feed { bytes, room, .. } => {
                write!(to, "{name}: bytes {}, {room} slots", short(bytes))
            }
        }
    }
}

impl Numbers for ReceiverCall {
    fn pass(&mut self, change: &mut Change) {
        match self {
            Given { record } => record.pass(change),
            Fresh | Sync => {}
            Feed { call, bytes, room } => {
                call.pass(change);
                room.pass(change);
                bytes.pass(change);
            }
        }
    }
}
