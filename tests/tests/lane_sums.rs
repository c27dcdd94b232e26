//! What Q-5 promises of a receiver's sums, through the archive: from the lock
//! that an undamaged sequence gives they are those of the frames, at every byte,
//! and highest minus lowest is at most 32. It is checked by itself; on a part of
//! the lines the slow version runs beside.

use owsopel_tests::archive::{fail, Archive};
use owsopel_tests::lane_comparison::LaneComparison;
use owsopel_tests::lane_records::{self, sequence_bytes, ALIGNMENTS, MODES};
use owsopel_tests::lines::Line;
use owsopel_tests::long_lines::samples;
use owsopel_tests::records::{Receiver, Sender, LOCKED};
use owsopel_tests::sum_trials::{demand_sums, swinging, unbalanced};
use owsopel_tests::trials::feed_line;

type Comparison = LaneComparison<Archive>;

/// How a line's samples are made.
#[derive(Clone, Copy)]
enum Kind {
    /// Any, all equal, at the ends of their range, or rising.
    Any,
    /// As few or as many ones as can be.
    Unbalanced,
    /// R goes from one end to the other.
    Swinging,
}

impl Kind {
    fn samples(self, comparison: &mut Comparison, sender: &Sender, length: usize) -> Vec<u16> {
        match self {
            Kind::Any => samples(length, &mut comparison.random),
            Kind::Unbalanced => unbalanced(sender, length, &mut comparison.random),
            Kind::Swinging => swinging(sender, length),
        }
    }
}

/// The SYNC call on a sender, then its sequence and samples of a kind, sent
/// apart: the bytes of both, and R after each.
#[track_caller]
fn sent(
    comparison: &mut Comparison,
    sender: &mut Sender,
    kind: Kind,
    length: usize,
) -> ([Vec<u8>; 2], [i32; 2]) {
    assert_eq!(comparison.sync(sender), 0);
    let (_, sequence) = comparison.send(sender, &[], sequence_bytes(sender.alignment));
    let r = sender.r;
    let samples = kind.samples(comparison, sender, length);
    let (sent, frames) = comparison.send(sender, &samples, 2 * length);
    assert_eq!(sent.taken, length);
    ([sequence, frames], [r, sender.r])
}

/// Any admitted record of a mode, noise, the sequence of a sender, and samples
/// of a kind, after the lock byte by byte: the sums must be those of the whole
/// frames at each byte, and in the end the change of the sender's R since the
/// lock. Gives highest minus lowest.
#[track_caller]
fn sums_from_any_record(
    comparison: &mut Comparison,
    before: Receiver,
    sender: &mut Sender,
    kind: Kind,
    length: usize,
) -> i32 {
    let ([sequence, frames], [r_at_lock, r]) = sent(comparison, sender, kind, length);
    let noise = comparison.random.below(300);
    let mut line = Line::default();
    line.noise(noise, &mut comparison.random);
    line.bytes(&sequence);
    line.bytes(&frames);
    let (line, _) = line.end(&mut comparison.random);
    let start = noise + 8 * sequence.len();

    let mut receiver = before;
    let (to_lock, rest) = line.split_at(start.div_ceil(8));
    feed_line(comparison, &mut receiver, to_lock);
    let mut range = demand_sums(&receiver, &[]);
    for (place, byte) in rest.iter().enumerate() {
        comparison.feed(&mut receiver, &[*byte], 1);
        let bits = 8 * (to_lock.len() + place + 1) - start;
        range = demand_sums(&receiver, &frames[..bits / 16 * 2]);
    }
    if receiver.mode != LOCKED || receiver.sum != r - r_at_lock {
        fail(&format!(
            "from {before:?}, R {r_at_lock} at the lock, then {r}: {receiver:?}"
        ));
    }
    range
}

/// One line in so many has the slow version beside.
const SLOW: usize = 20;

/// The lines of each kind.
const LINES: usize = 11_000;

/// Lines of a kind, each mode equally often with each number of alignment
/// frames. The widest range of all.
#[track_caller]
fn lines(name: &str, seed: u64, kind: Kind) -> i32 {
    let mut comparison = Comparison::new(seed);
    let mut widest = 0;
    for index in 0..LINES {
        comparison.slow = index / 5 % SLOW == 0;
        let random = &mut comparison.random;
        let before = lane_records::receiver(MODES[index % 5], random);
        let mut sender = lane_records::sender_with(ALIGNMENTS[index / 5 % 11], random);
        let length = random.pick(&[4, 30, 200]);
        let length = random.below(length);
        let range = sums_from_any_record(&mut comparison, before, &mut sender, kind, length);
        widest = widest.max(range);
    }
    println!("{name}: highest minus lowest is up to {widest}");
    comparison.end(name, 800_000, &[0]);
    widest
}

#[test]
fn sums_of_any_samples() {
    lines("sums of any samples", 901, Kind::Any);
}

#[test]
fn sums_of_unbalanced_frames() {
    lines("sums of unbalanced frames", 902, Kind::Unbalanced);
}

/// 32 is met, and never exceeded.
#[test]
fn sums_of_swinging_r() {
    let widest = lines("sums of swinging R", 903, Kind::Swinging);
    assert_eq!(widest, 32);
}

/// From every R before the sequence, with every number of alignment frames: an
/// even R gets to 32, an odd one, which stays odd, to 30.
#[test]
fn highest_minus_lowest_gets_to_32_from_every_even_r() {
    let mut comparison = Comparison::new(904);
    for alignment in ALIGNMENTS {
        for r in -16..=16 {
            let before = comparison.fresh();
            let mut sender = Sender {
                r,
                ..lane_records::sender_with(alignment, &mut comparison.random)
            };
            let kind = Kind::Swinging;
            let range = sums_from_any_record(&mut comparison, before, &mut sender, kind, 8);
            assert_eq!(range, 32 - 2 * (r & 1));
        }
    }
    comparison.end("highest minus lowest", 11 * 33 * 52, &[0]);
}
