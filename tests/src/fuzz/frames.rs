//! Calls on single frames.

use std::fmt::{self, Display};

use super::numbers::{Change, Numbers};
use super::step::Step;
use crate::archive::Calls;
use crate::reference::calls as slow;
use crate::reference::frame;

#[derive(Clone, Debug, PartialEq, Eq)]
pub enum FrameCall {
    Next {
        state: u32,
    },
    CheckSeed {
        seed: u32,
    },
    LaneSeed {
        lane: u8,
    },
    Disparity {
        frame: u16,
    },
    Build {
        sample: u16,
        state: u32,
        clock: u32,
        r: i32,
    },
    Read {
        frame: u16,
    },
    ReadSample {
        frame: u16,
        state: u32,
    },
}

use FrameCall::{Build, CheckSeed, Disparity, LaneSeed, Next, Read, ReadSample};

impl FrameCall {
    pub fn name(&self) -> &'static str {
        match self {
            Next { .. } => "ows_next",
            CheckSeed { .. } => "ows_check_seed",
            LaneSeed { .. } => "ows_lane_seed",
            Disparity { .. } => "ows_disparity",
            Build { .. } => "ows_build",
            Read { .. } => "ows_read",
            ReadSample { .. } => "ows_read_sample",
        }
    }

    pub fn run(&self, calls: &Calls, told: bool) -> Step {
        match *self {
            Next { state } => {
                let expected = slow::next(state);
                Step::numbers(told, expected.refusal, (calls.ows_next)(state), expected)
            }
            CheckSeed { seed } => {
                let expected = slow::check_seed(seed);
                Step::numbers(told, expected, (calls.ows_check_seed)(seed), expected)
            }
            LaneSeed { lane } => {
                let expected = frame::lane_seed(lane);
                Step::numbers(told, 0, (calls.ows_lane_seed)(lane), expected)
            }
            Disparity { frame } => {
                let expected = frame::disparity(frame);
                Step::numbers(told, 0, (calls.ows_disparity)(frame), expected)
            }
            Build {
                sample,
                state,
                clock,
                r,
            } => {
                let expected = slow::build(sample, state, clock, r);
                let answer = (calls.ows_build)(sample, state, clock, r);
                Step::numbers(told, expected.refusal, answer, expected)
            }
            Read { frame } => Step::numbers(told, 0, (calls.ows_read)(frame), slow::read(frame)),
            ReadSample { frame, state } => {
                let expected = slow::read_sample(frame, state);
                let answer = (calls.ows_read_sample)(frame, state);
                Step::numbers(told, expected.refusal, answer, expected)
            }
        }
    }
}

impl Display for FrameCall {
    fn fmt(&self, to: &mut fmt::Formatter) -> fmt::Result {
        let name = self.name();
        match self {
            Next { state } => write!(to, "{name}: state {state:#x}"),
            CheckSeed { seed } => write!(to, "{name}: seed {seed:#x}"),
            LaneSeed { lane } => write!(to, "{name}: lane {lane}"),
            Disparity { frame } | Read { frame } => write!(to, "{name}: frame {frame:#06x}"),
            Build {
                sample,
                state,
                clock,
                r,
            } => write!(
                to,
                "{name}: sample {sample}, state {state:#x}, clock {clock}, R {r}"
            ),
            ReadSample { frame, state } => {
                write!(to, "{name}: frame {frame:#06x}, state {state:#x}")
            }
        }
    }
}

impl Numbers for FrameCall {
    fn pass(&mut self, change: &mut Change) {
        match self {
            Next { state: word } | CheckSeed { seed: word } => word.pass(change),
            LaneSeed { lane } => lane.pass(change),
            Disparity { frame } | Read { frame } => frame.pass(change),
            Build {
                sample,
                state,
                clock,
                r,
            } => {
                sample.pass(change);
                state.pass(change);
                clock.pass(change);
                r.pass(change);
            }
            ReadSample { frame, state } => {
                frame.pass(change);
                state.pass(change);
            }
        }
    }
}
