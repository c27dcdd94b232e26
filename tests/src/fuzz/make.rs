//! Lists of calls, each made from a seed and its number alone.

use super::call::{Call, Records, RECORDS};
use super::frames::FrameCall;
use super::step::Room;
use crate::lane_records::{self, ALIGNMENTS};
use crate::random::Random;

/// The list of that number.
pub fn list(seed: u64, number: u64) -> Vec<Call> {
    // The first number mixes the two well.
    let mixed = Random::new(seed).number() ^ Random::new(!number).number();
    let mut making = Making::new(Random::new(mixed));
    let shares = making.random.pick(&SHARES);
    for _ in 0..=making.random.below(40) {
        making.call(shares);
    }
    making.list
}

/// How often, in 16 calls, a list has calls on single frames, on a sender, on
/// a receiver, and the rest on strips.
const SHARES: [[usize; 3]; 6] = [
    [0, 6, 10],
    [0, 6, 10],
    [0, 10, 6],
    [3, 5, 5],
    [16, 0, 0],
    [0, 0, 0],
];

/// A list being made. The slow version tells what its calls come to, so that
/// later calls can go by it.
pub struct Making {
    pub random: Random,
    /// The senders, and the receivers, that the list uses.
    used: usize,
    pub records: Records,
    /// Bits on their way to each receiver.
    pub lines: [Vec<bool>; RECORDS],
    /// Strips written so far, of either form.
    pub strips: Vec<Vec<u8>>,
    pub list: Vec<Call>,
}

impl Making {
    fn new(mut random: Random) -> Self {
        Making {
            used: random.pick(&[1, 1, 1, 2, RECORDS]),
            random,
            records: Records::default(),
            lines: Default::default(),
            strips: Vec::new(),
            list: Vec::new(),
        }
    }

    /// Adds a call.
    fn call(&mut self, [frames, senders, receivers]: [usize; 3]) {
        let kind = self.random.below(16);
        if kind < frames {
            let call = self.frame_call();
            self.list.push(Call::Frame(call));
        } else if kind < frames + senders {
            self.sender_call();
        } else if kind < frames + senders + receivers {
            self.receiver_call();
        } else {
            self.strip_call();
        }
    }

    fn frame_call(&mut self) -> FrameCall {
        let random = &mut self.random;
        let frame = frame(random);
        match random.below(8) {
            0 => FrameCall::Next {
                state: state(random),
            },
            1 => FrameCall::CheckSeed { seed: seed(random) },
            // The slow version takes its time for a lane's seed.
            2 if random.one_in(8) => FrameCall::LaneSeed {
                lane: random.byte(),
            },
            2 | 3 => FrameCall::Disparity { frame },
            4 => FrameCall::Read { frame },
            5 => FrameCall::ReadSample {
                frame,
                state: state(random),
            },
            _ => FrameCall::Build {
                sample: sample(random),
                state: state(random),
                clock: clock(random),
                r: running_disparity(random),
            },
        }
    }

    /// The index of a sender or a receiver.
    pub fn index(&mut self) -> usize {
        self.random.below(self.used)
    }

    /// Room of that many elements, of any content.
    pub fn room(&mut self, size: usize) -> Room {
        let fill = self.random.word() as u16;
        Room { size, fill }
    }
}

// ---- Numbers in and out of range ----

/// A number of any size.
pub fn any_word(random: &mut Random) -> u32 {
    random.word() >> random.below(32)
}

fn state(random: &mut Random) -> u32 {
    match random.below(8) {
        0 => random.pick(&[0, 1, 0x1FFFF, 0x20000, 0x20001, u32::MAX]),
        1 => any_word(random),
        _ => lane_records::state(random),
    }
}

/// A seed, with its edges, and those of the word 0x00FF.
pub fn seed(random: &mut Random) -> u32 {
    match random.below(8) {
        0 => random.pick(&[0, 1, 0x00FE, 0x0100, 0x4000, 0x1FFFF, 0x20000, 0x200FF]),
        1 => 0x00FF + 0x4000 * random.below(9) as u32,
        2 => any_word(random),
        _ => lane_records::seed(random),
    }
}

/// A number of alignment frames: permitted, just outside, with a bit flipped,
/// or any.
pub fn alignment(random: &mut Random) -> u32 {
    match random.below(8) {
        0..=2 => random.pick(&[10, 11, 33, 34]),
        3 => random.pick(&ALIGNMENTS) ^ (1 << random.below(32)),
        4 => any_word(random),
        _ => random.pick(&ALIGNMENTS),
    }
}

/// A sample, seldom none.
pub fn sample(random: &mut Random) -> u16 {
    match random.below(12) {
        0 => random.pick(&[0, 16383, 16384, 16385, 0x8000, u16::MAX]),
        1 => random.word() as u16,
        _ => random.below(16384) as u16,
    }
}

fn clock(random: &mut Random) -> u32 {
    match random.below(12) {
        0 => any_word(random),
        _ => random.below(2) as u32,
    }
}

fn running_disparity(random: &mut Random) -> i32 {
    match random.below(8) {
        0 => random.pick(&[-17, 17, -18, 18, i32::MIN, i32::MAX]),
        1 => any_word(random) as i32,
        2 => random.pick(&[-16, -15, 15, 16]),
        _ => random.below(33) as i32 - 16,
    }
}

/// A frame of any kind, often with few ones or few zeros.
fn frame(random: &mut Random) -> u16 {
    let any = random.word() as u16;
    match random.below(6) {
        0 => random.pick(&[0, 0xFFFF, 0x00FF, 0xFF00, 0x4000, 0x8000, 0x7FFF, 0x3FFF]),
        1 => 1 << random.below(16),
        2 => !(1 << random.below(16)),
        _ => any,
    }
}
