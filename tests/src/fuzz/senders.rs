//! Calls on a sender's record, which later calls take as it was left.

use std::fmt::{self, Display};

use super::numbers::{pass_alignment, Change, Numbers};
use super::step::{Room, Step};
use crate::archive::{short, Calls};
use crate::lane_records::sequence_bytes;
use crate::records::Sender;
use crate::reference::calls as slow;

#[derive(Clone, Debug, PartialEq, Eq)]
pub enum SenderCall {
    /// No call: the record is replaced.
    Given {
        record: Sender,
    },
    Start {
        seed: u32,
    },
    StartWith {
        seed: u32,
        alignment: u32,
    },
    Sync,
    Send {
        samples: Vec<u16>,
        room: Room,
    },
}

use SenderCall::{Given, Send, Start, StartWith, Sync};

impl SenderCall {
    pub fn name(&self) -> &'static str {
        match self {
            Given { .. } => "record",
            Start { .. } => "ows_start",
            StartWith { .. } => "ows_start_with",
            Sync => "ows_sync",
            Send { .. } => "ows_send",
        }
    }

    /// Runs the call; the record becomes what the slow version leaves.
    pub fn run(&self, calls: &Calls, sender: &mut Sender, told: bool) -> Step {
        match self {
            Given { record } => {
                *sender = *record;
                Step::numbers(false, 0, *record, *record)
            }
            Start { seed } => {
                let expected = slow::start(*seed);
                *sender = expected.sender;
                Step::numbers(told, expected.refusal, (calls.ows_start)(*seed), expected)
            }
            StartWith { seed, alignment } => {
                let expected = slow::start_with(*seed, *alignment);
                let answer = (calls.ows_start_with)(*seed, *alignment);
                *sender = expected.sender;
                Step::numbers(told, expected.refusal, answer, expected)
            }
            Sync => {
                let mut lent = *sender;
                let refusal = slow::sync(sender);
                let answer = calls.sync(&mut lent).map(|answer| (answer, lent));
                let answer = answer.map(|answer| (answer, [0_u8; 0]));
                Step::buffer(told, refusal, answer, ((refusal, *sender), [0_u8; 0]))
            }
            Send { samples, room } => {
                let (mut buf, mut expected_buf) = (room.bytes(), room.bytes());
                let answer = calls.send(*sender, samples, &mut buf);
                let expected = slow::send(*sender, samples, &mut expected_buf);
                *sender = expected.sender;
                let answer = answer.map(|answer| (answer, buf));
                Step::buffer(told, expected.refusal, answer, (expected, expected_buf))
            }
        }
    }
}

impl SenderCall {
    /// The record that the first samples leave, and the call with the others.
    pub fn split(&self, record: Sender, first: usize) -> [SenderCall; 2] {
        let (mut call, mut record) = (self.clone(), record);
        if let (Send { samples, .. }, 1..) = (&mut call, first) {
            let samples: Vec<u16> = samples.drain(..first).collect();
            // Room for the longest sequence, too.
            let mut buf = vec![0; 2 * first + sequence_bytes(32)];
            record = slow::send(record, &samples, &mut buf).sender;
        }
        [Given { record }, call]
    }
}

impl Display for SenderCall {
    fn fmt(&self, to: &mut fmt::Formatter) -> fmt::Result {
        let name = self.name();
        match self {
            Given { record } => write!(to, "{name} {record:?}"),
            Start { seed } => write!(to, "{name}: seed {seed:#x}"),
            StartWith { seed, alignment } => {
                write!(to, "{name}: seed {seed:#x}, alignment {alignment}")
            }
            Sync => write!(to, "{name}"),
            Send { samples, room } => {
                write!(to, "{name}: samples {}, {room} bytes", short(samples))
            }
        }
    }
}

impl Numbers for SenderCall {
    fn pass(&mut self, change: &mut Change) {
        match self {
            Given { record } => record.pass(change),
            Start { seed } => seed.pass(change),
            StartWith { seed, alignment } => {
                seed.pass(change);
                pass_alignment(alignment, change);
            }
            Sync => {}
            Send { samples, room } => {
                room.pass(change);
                samples.pass(change);
            }
        }
    }
}
