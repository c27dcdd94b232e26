//! Feeding a line by `ows_feed_frames` and in three other ways, in one call and
//! each time from the same record: a locked line at every bit offset, and noise.

use std::hint::black_box;

use super::lines::{copying, Feed, Input, PERIOD};
use super::time::{compared, Compared, Job};
use crate::archive::Direct;
use crate::lines::Line;
use crate::natural::{ByBytes, ByPairs};
use crate::random::Random;
use crate::records::{Fed, Lane, Receiver, LOCKED};

const ROUNDS: usize = 61;

/// `ows_feed_frames`, `ows_feed`, the natural versions by bytes and by two bytes.
const WAYS: [Feed; 4] = [
    Direct::feed_frames,
    Direct::feed,
    <ByBytes as Lane>::feed,
    <ByPairs as Lane>::feed,
];

/// What a feeding call gave: the answer, and the slots.
struct Given {
    fed: Option<Fed>,
    slots: Vec<u16>,
}

/// ns per bit of a line fed in each of the four ways, and copied. Beside them the
/// answer and the items, which must be the same in all four.
pub fn costs(start: Receiver, line: &[u8]) -> (Compared<5>, Fed, Vec<u16>) {
    let bits = 8 * line.len();
    let mut given = WAYS.map(|_| Given {
        fed: None,
        slots: vec![0; line.len()],
    });
    let mut ways = WAYS.iter();
    let [frames, feed, bytes, two] = given.each_mut().map(|given| {
        let way = ways.next().expect("as many as are given");
        Job::new(bits, move || {
            given.fed = Some(way(start, black_box(line), &mut given.slots));
        })
    });
    let costs = compared(ROUNDS, [frames, feed, bytes, two, copying(bits, line)]);
    let [first, others @ ..] = given;
    for other in others {
        assert!(other.fed == first.fed, "the answers differ");
        assert!(other.slots == first.slots, "the items differ");
    }
    let fed = first.fed.expect("a round was run");
    assert_eq!((fed.refusal, fed.bytes), (0, line.len()));
    let mut items = first.slots;
    items.truncate(fed.slots);
    (costs, fed, items)
}

impl Input {
    /// A receiver that has locked, and the line after it: frames begin so many
    /// bits past the first, the third and every other odd byte's start.
    fn at_offset(&self, offset: usize) -> (Receiver, Vec<u8>) {
        let mut random = Random::new(504);
        let mut line = Line::default();
        line.noise(offset, &mut random);
        for bytes in [&self.sequence, &self.line, &self.line] {
            line.bytes(bytes);
        }
        let (mut before, _) = line.end(&mut random);
        let mut line = before.split_off(self.sequence.len() + 2 * offset.div_ceil(16));
        line.truncate(2 * PERIOD);
        let start = Direct::feed(Direct::fresh(), &before, &mut [0]).receiver;
        let held = (16 - offset as u32) % 16;
        assert_eq!((start.mode, start.count), (LOCKED, held));
        (start, line)
    }

    /// ns per bit of a locked line at this offset.
    pub fn offset(&self, offset: usize) -> Compared<5> {
        let (start, line) = self.at_offset(offset);
        let (costs, _, items) = costs(start, &line);
        assert!(items == self.samples, "an item is wrong");
        costs
    }

    /// ns per bit of noise, from Hunt.
    pub fn noise_in_ways(&self) -> Compared<5> {
        costs(Direct::fresh(), &self.noise).0
    }
}
