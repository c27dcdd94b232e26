//! A million frames that are never inverted, half of them at random, and
//! always, and what they are built from. Lists of three are in this order.

use crate::archive::ARCHIVE;
use crate::random::Random;
use crate::reference::frame::{build, disparity, word};

pub const FRAMES: usize = 1_000_000;

/// The first state; the first clock bit is 0.
pub const SEED: u32 = 1;

/// What a frame is built from.
#[derive(Clone, Copy)]
pub struct Given {
    pub state: u32,
    pub sample: u16,
    pub clock: u8,
    pub r: i8,
}

impl Given {
    /// The frame, by the slow version.
    fn frame(self) -> u16 {
        let (clock, r) = (self.clock.into(), self.r.into());
        let built = build(self.sample, self.state, clock, r);
        built.expect("all is in range").0
    }

    /// The same with an R that has the frame inverted, where R is 0.
    fn inverted(self) -> Self {
        let r = 16 * disparity(self.frame()).signum() as i8;
        Given { r, ..self }
    }

    /// The same with a sample for a sender: the frame sent has disparity 12 or
    /// -12, inverted or not, so that R goes from -6 to 6 and back.
    fn for_sender(self, inverted: bool) -> Self {
        let (r, data) = match (self.clock, inverted) {
            (0, false) => (-6, 0x3FFF),
            (0, true) => (-6, 0x0003),
            (_, false) => (6, 0x0001),
            (_, true) => (6, 0x1FFF),
        };
        let sample = data ^ word(self.state);
        Given { sample, r, ..self }
    }
}

/// Random samples, with the states and clock bits of a line past its sequence,
/// and R 0, which inverts no frame. None has disparity 0, which no R inverts.
fn draw(random: &mut Random) -> Vec<Given> {
    let (mut list, mut state) = (Vec::new(), SEED);
    while list.len() < FRAMES {
        let given = Given {
            state,
            sample: random.below(16384) as u16,
            clock: (list.len() % 2) as u8,
            r: 0,
        };
        if disparity(given.frame()) != 0 {
            list.push(given);
            state = (ARCHIVE.ows_next)(state).state;
        }
    }
    list
}

/// Whether the disparity bit is 1.
pub fn is_inverted(frame: u16) -> bool {
    frame & 0x8000 != 0
}

/// Three lists of frames, and what they are built from.
pub struct Frames {
    pub given: [Vec<Given>; 3],
    pub frames: [Vec<u16>; 3],
}

/// Frames with the same contents: only R differs.
impl Default for Frames {
    fn default() -> Self {
        let mut random = Random::new(503);
        let never = draw(&mut random);
        let always: Vec<Given> = never.iter().map(|given| given.inverted()).collect();
        let pairs = never.iter().zip(&always);
        let half = pairs.map(|(plain, inverted)| random.pick(&[*plain, *inverted]));
        let half = half.collect();
        Frames::new([never, half, always])
    }
}

impl Frames {
    /// The frames of these lists, with a check of how many are inverted: none,
    /// half to a hundredth, and all.
    fn new(given: [Vec<Given>; 3]) -> Self {
        let frames = given.each_ref().map(|list| {
            let frames = list.iter().map(|given| given.frame());
            frames.collect::<Vec<u16>>()
        });
        let [never, half, always] = frames.each_ref().map(|frames| {
            let inverted = frames.iter().filter(|frame| is_inverted(**frame));
            inverted.count()
        });
        assert_eq!((never, always), (0, FRAMES));
        assert!(half.abs_diff(FRAMES / 2) < FRAMES / 100, "{half} inverted");
        Frames { given, frames }
    }

    /// Frames that a sender sends from R -6, inverted in the same places.
    pub fn for_sender(&self) -> Self {
        Frames::new(self.frames.each_ref().map(|frames| {
            let pairs = self.given[0].iter().zip(frames);
            let given = pairs.map(|(given, frame)| given.for_sender(is_inverted(*frame)));
            given.collect()
        }))
    }

    pub fn samples(&self) -> [Vec<u16>; 3] {
        self.given.each_ref().map(|list| {
            let samples = list.iter().map(|given| given.sample);
            samples.collect()
        })
    }

    /// The frames as bytes of a line.
    pub fn lines(&self) -> [Vec<u8>; 3] {
        self.frames.each_ref().map(|frames| {
            let bytes = frames.iter().flat_map(|frame| frame.to_le_bytes());
            bytes.collect()
        })
    }
}
