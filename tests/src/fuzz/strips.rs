//! Calls on strips.

use std::fmt::{self, Display};

use super::numbers::{Change, Numbers};
use super::step::{Room, Step};
use crate::archive::{short, Calls};
use crate::reference::calls as slow;
use crate::reference::strip::Form;

#[derive(Clone, Debug, PartialEq, Eq)]
pub enum StripCall {
    Write {
        form: Form,
        lane: u8,
        items: Vec<u16>,
        room: Room,
    },
    Read {
        bytes: Vec<u8>,
        room: Room,
    },
    Check {
        bytes: Vec<u8>,
    },
    Convert {
        wanted: Form,
        bytes: Vec<u8>,
        room: Room,
    },
}

use StripCall::{Check, Convert, Read, Write};

impl StripCall {
    pub fn name(&self) -> &'static str {
        match self {
            Write { form, .. } => match form {
                Form::One => "ows_write_strip",
                Form::Two => "ows_write_short_strip",
            },
            Read { .. } => "ows_read_strip",
            Check { .. } => "ows_check_strip",
            Convert { wanted, .. } => match wanted {
                Form::One => "ows_expand_strip",
                Form::Two => "ows_shorten_strip",
            },
        }
    }

    pub fn run(&self, calls: &Calls, told: bool) -> Step {
        match self {
            Write {
                form,
                lane,
                items,
                room,
            } => run_write(calls, told, *form, *lane, items, room),
            Read { bytes, room } => {
                let (mut slots, mut expected_slots) = (room.slots(), room.slots());
                let answer = calls.read_strip(bytes, &mut slots);
                let expected = slow::read_strip(bytes, &mut expected_slots);
                let answer = answer.map(|answer| (answer, slots));
                Step::buffer(told, expected.refusal, answer, (expected, expected_slots))
            }
            Check { bytes } => {
                let answer = calls.check_strip(bytes);
                let expected = slow::check_strip(bytes);
                let answer = answer.map(|answer| (answer, [0_u8; 0]));
                Step::buffer(told, expected.refusal, answer, (expected, [0_u8; 0]))
            }
            Convert {
                wanted,
                bytes,
                room,
            } => run_convert(calls, told, *wanted, bytes, room),
        }
    }
}

fn run_write(calls: &Calls, told: bool, form: Form, lane: u8, items: &[u16], room: &Room) -> Step {
    let (mut buf, mut expected_buf) = (room.bytes(), room.bytes());
    let (answer, expected) = match form {
        Form::One => (
            calls.write_strip(lane, items, &mut buf),
            slow::write_strip(lane, items, &mut expected_buf),
        ),
        Form::Two => (
            calls.write_short_strip(lane, items, &mut buf),
            slow::write_short_strip(lane, items, &mut expected_buf),
        ),
    };
    let answer = answer.map(|answer| (answer, buf));
    Step::buffer(told, expected.refusal, answer, (expected, expected_buf))
}

fn run_convert(calls: &Calls, told: bool, wanted: Form, bytes: &[u8], room: &Room) -> Step {
    let (mut buf, mut expected_buf) = (room.bytes(), room.bytes());
    let (answer, expected) = match wanted {
        Form::One => (
            calls.expand_strip(bytes, &mut buf),
            slow::expand_strip(bytes, &mut expected_buf),
        ),
        Form::Two => (
            calls.shorten_strip(bytes, &mut buf),
            slow::shorten_strip(bytes, &mut expected_buf),
        ),
    };
    let answer = answer.map(|answer| (answer, buf));
    Step::buffer(told, expected.refusal, answer, (expected, expected_buf))
}

impl Display for StripCall {
    fn fmt(&self, to: &mut fmt::Formatter) -> fmt::Result {
        let name = self.name();
        match self {
            Write {
                lane, items, room, ..
            } => {
                let items = short(items);
                write!(to, "{name}: lane {lane}, items {items}, {room} bytes")
            }
            Read { bytes, room } => write!(to, "{name}: bytes {}, {room} slots", short(bytes)),
            Check { bytes } => write!(to, "{name}: bytes {}", short(bytes)),
            Convert { bytes, room, .. } => {
                write!(to, "{name}: bytes {}, {room} bytes", short(bytes))
            }
        }
    }
}

impl Numbers for StripCall {
    fn pass(&mut self, change: &mut Change) {
        match self {
            Write {
                form,
                lane,
                items,
                room,
            } => {
                form.pass(change);
                lane.pass(change);
                room.pass(change);
                items.pass(change);
            }
            Read { bytes, room } => {
                room.pass(change);
                bytes.pass(change);
            }
            Check { bytes } => bytes.pass(change),
            Convert {
                wanted,
                bytes,
                room,
            } => {
                wanted.pass(change);
                room.pass(change);
                bytes.pass(change);
            }
        }
    }
}
