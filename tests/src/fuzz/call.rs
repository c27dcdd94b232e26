//! A call of a list. The calls of a lane's end name their record by its index.

use std::fmt::{self, Display};

use super::frames::FrameCall;
use super::numbers::{Change, List, Numbers};
use super::receivers::ReceiverCall;
use super::senders::SenderCall;
use super::step::Step;
use super::strips::StripCall;
use crate::archive::Calls;
use crate::records::{Receiver, Sender};

/// The senders, and the receivers, of a list.
pub const RECORDS: usize = 3;

#[derive(Clone, Debug, PartialEq, Eq)]
pub enum Call {
    Frame(FrameCall),
    Sender { index: usize, call: SenderCall },
    Receiver { index: usize, call: ReceiverCall },
    Strip(StripCall),
}

/// The records of a list, all zeros before the first call.
#[derive(Clone, Debug, Default)]
pub struct Records {
    pub senders: [Sender; RECORDS],
    pub receivers: [Receiver; RECORDS],
}

impl Records {
    /// Runs a call by a version and by the slow version.
    pub fn run(&mut self, calls: &Calls, call: &Call, told: bool) -> Step {
        match call {
            Call::Frame(call) => call.run(calls, told),
            Call::Sender { index, call } => call.run(calls, &mut self.senders[*index], told),
            Call::Receiver { index, call } => call.run(calls, &mut self.receivers[*index], told),
            Call::Strip(call) => call.run(calls, told),
        }
    }
}

impl Call {
    /// The function's name in the header, or `record` where one is replaced.
    pub fn name(&self) -> &'static str {
        match self {
            Call::Frame(call) => call.name(),
            Call::Sender { call, .. } => call.name(),
            Call::Receiver { call, .. } => call.name(),
            Call::Strip(call) => call.name(),
        }
    }

    /// Its list, if it has one.
    pub fn list(&mut self) -> Option<List<'_>> {
        match self {
            Call::Sender {
                call: SenderCall::Send { samples: list, .. },
                ..
            }
            | Call::Strip(StripCall::Write { items: list, .. }) => Some(List::Numbers(list)),
            Call::Receiver {
                call: ReceiverCall::Feed { bytes, .. },
                ..
            }
            | Call::Strip(
                StripCall::Read { bytes, .. }
                | StripCall::Check { bytes }
                | StripCall::Convert { bytes, .. },
            ) => Some(List::Bytes(bytes)),
            _ => None,
        }
    }

    /// The call with the rest of its list, on record 0, after that record is
    /// given as the list's first elements leave it.
    pub fn with_record(&self, records: &Records, first: usize) -> Option<[Call; 2]> {
        let index = 0;
        match self {
            Call::Frame(_) | Call::Strip(_) => None,
            Call::Sender { index: at, call } => {
                let calls = call.split(records.senders[*at], first);
                Some(calls.map(|call| Call::Sender { index, call }))
            }
            Call::Receiver { index: at, call } => {
                let calls = call.split(records.receivers[*at], first);
                Some(calls.map(|call| Call::Receiver { index, call }))
            }
        }
    }
}

impl Display for Call {
    fn fmt(&self, to: &mut fmt::Formatter) -> fmt::Result {
        match self {
            Call::Frame(call) => write!(to, "{call}"),
            Call::Sender { index, call } => write!(to, "sender {index}: {call}"),
            Call::Receiver { index, call } => write!(to, "receiver {index}: {call}"),
            Call::Strip(call) => write!(to, "{call}"),
        }
    }
}

impl Numbers for Call {
    fn pass(&mut self, change: &mut Change) {
        match self {
            Call::Frame(call) => call.pass(change),
            Call::Sender { call, .. } => call.pass(change),
            Call::Receiver { call, .. } => call.pass(change),
            Call::Strip(call) => call.pass(change),
        }
    }
}
