//! Long lines from a sender to a receiver, in calls of any sizes, each call
//! compared with the slow version.

use crate::lane_comparison::LaneComparison;
use crate::lane_records::{self, ALIGNMENTS};
use crate::lines::{bytes_of, Damage};
use crate::random::Random;
use crate::records::{Lane, Receiver, Sender};

/// How lines of one kind are made.
pub struct Kind {
    /// The damage done to stretches of a line, one of these at a time.
    pub damage: &'static [Damage],
    /// One sending call in so many has a SYNC call before.
    pub sync_one_in: usize,
    /// One feeding call in so many has a SYNC call of the receiver before.
    pub receiver_sync_one_in: usize,
    /// The largest numbers of samples, of bytes and of slots lent.
    pub largest: usize,
}

/// What the receivers of some lines handed out.
#[derive(Default)]
pub struct Totals {
    pub samples: u64,
    pub gaps: u64,
    pub losses: u64,
}

/// The frames of one line, about.
const LINE: u64 = 20_000;

/// Lines of one kind, at least so many frames in all, with each number of
/// alignment frames in turn. Each begins at any bit of two bytes.
pub fn run<L: Lane>(comparison: &mut LaneComparison<L>, kind: &Kind, frames: u64) -> Totals {
    let mut totals = Totals::default();
    for alignment in ALIGNMENTS.into_iter().cycle() {
        if comparison.frames >= frames {
            break;
        }
        let end = comparison.frames + LINE;
        let seed = lane_records::seed(&mut comparison.random);
        let mut sender = comparison.start_with(seed, alignment).sender;
        let mut receiver = comparison.fresh();
        let offset = comparison.random.below(16);
        let mut rest: Vec<bool> = (0..offset).map(|_| comparison.random.one_in(2)).collect();
        while comparison.frames < end {
            let sent = stretch(comparison, kind, &mut sender);
            let damage = comparison.random.pick(kind.damage);
            rest.extend(damage.done_to(&sent, &mut comparison.random));
            let left = rest.split_off(rest.len() / 8 * 8);
            feed_all(comparison, kind, &mut receiver, &bytes_of(&rest));
            rest = left;
        }
        totals.samples += receiver.samples;
        totals.gaps += receiver.gaps;
        totals.losses += receiver.losses;
    }
    totals
}

/// The bytes written in some sending calls, refused ones and SYNC calls among
/// them.
#[track_caller]
fn stretch<L: Lane>(
    comparison: &mut LaneComparison<L>,
    kind: &Kind,
    sender: &mut Sender,
) -> Vec<u8> {
    let mut line = Vec::new();
    for _ in 0..1 + comparison.random.below(12) {
        if comparison.random.one_in(kind.sync_one_in) {
            comparison.sync(sender);
        }
        let length = size(kind.largest, &mut comparison.random);
        let mut samples = samples(length, &mut comparison.random);
        if length > 0 && comparison.random.one_in(64) {
            let place = comparison.random.below(length);
            samples[place] = comparison.random.pick(&[16384, 16385, 32768, 65535]);
        }
        let room = match comparison.random.below(4) {
            0 => size(kind.largest, &mut comparison.random),
            1 => 2 * length,
            _ => 2 * length + size(kind.largest, &mut comparison.random),
        };
        line.extend(comparison.send(sender, &samples, room).1);
    }
    line
}

/// Feeds all bytes, in calls of any sizes.
#[track_caller]
fn feed_all<L: Lane>(
    comparison: &mut LaneComparison<L>,
    kind: &Kind,
    receiver: &mut Receiver,
    line: &[u8],
) {
    let mut rest = line;
    while !rest.is_empty() {
        if comparison.random.one_in(kind.receiver_sync_one_in) {
            comparison.receiver_sync(receiver);
        }
        let length = size(2 * kind.largest, &mut comparison.random).min(rest.len());
        let room = match comparison.random.below(4) {
            0 => size(kind.largest, &mut comparison.random),
            1 => length / 2,
            _ => length,
        };
        let (fed, _) = comparison.feed(receiver, &rest[..length], room);
        rest = &rest[fed.bytes..];
    }
}

/// A size from 0 to the largest: often a large one, at times a very small one.
pub fn size(largest: usize, random: &mut Random) -> usize {
    match random.below(4) {
        0 => random.below(5).min(largest),
        1 => random.below(largest / 8 + 1),
        _ => random.below(largest + 1),
    }
}

/// Samples: of any values, all equal, at the ends of the range, or rising.
pub fn samples(length: usize, random: &mut Random) -> Vec<u16> {
    let start = random.below(16384) as u16;
    match random.below(4) {
        0 => vec![random.pick(&[0, 0x3FFF, start]); length],
        1 => (0..length).map(|_| random.pick(&[0, 0x3FFF])).collect(),
        2 => (0..length)
            .map(|k| ((usize::from(start) + 3 * k) % 16384) as u16)
            .collect(),
        _ => (0..length).map(|_| random.below(16384) as u16).collect(),
    }
}
