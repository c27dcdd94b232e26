//! The sender's calls through the archive and against the slow version: every
//! frame it can build, every state, every position and size of buffer.

use owsopel_tests::archive::Archive;
use owsopel_tests::lane_comparison::LaneComparison;
use owsopel_tests::lane_records::{self, sequence, ALIGNMENTS};
use owsopel_tests::long_lines::samples;
use owsopel_tests::records::{Sender, ALL_SENT, OUT_OF_SPACE};

type Comparison = LaneComparison<Archive>;

/// A permitted state whose word is 0, so that data and sample are equal.
const PLAIN: u32 = 0x04000;

/// One frame of every data and clock bit from every R.
#[test]
fn every_data_clock_bit_and_r() {
    let mut comparison = Comparison::new(701);
    for data in 0..16384 {
        let alignment = ALIGNMENTS[usize::from(data) % 11];
        for clock in 0..=1 {
            for r in -16..=16 {
                let mut sender = Sender {
                    seed: 1,
                    state: PLAIN,
                    clock,
                    r,
                    position: sequence(alignment),
                    alignment,
                };
                comparison.send(&mut sender, &[data], 2);
            }
        }
    }
    comparison.end("every data, clock bit and R", 16384 * 2 * 33, &[0]);
}

/// One frame of sample 0 and one of any sample from every state, and the SYNC
/// call to every permitted seed.
#[test]
fn every_state_and_seed() {
    let mut comparison = Comparison::new(702);
    for state in 1..=0x1FFFF {
        let mut sender = lane_records::sender(&mut comparison.random);
        (sender.state, sender.position) = (state, sequence(sender.alignment) - 1);
        let sample = comparison.random.below(16384) as u16;
        comparison.send(&mut sender, &[sample], 4);
        if state % 16384 != 0x00FF {
            sender.seed = state;
            assert_eq!(comparison.sync(&mut sender), 0);
            assert_eq!(sender.state, state);
        }
    }
    comparison.end("every state and seed", 2 * 0x1FFFF, &[0]);
}

/// Sends samples from a position to a buffer of that many bytes: what is written
/// and the position after it go by the number of alignment frames.
#[track_caller]
fn send_from(comparison: &mut Comparison, before: Sender, length: usize, room: usize) {
    let left = (sequence(before.alignment) - before.position) as usize;
    let needed = 2 * (left + length);
    let mut sender = before;
    let samples = samples(length, &mut comparison.random);
    let (sent, _) = comparison.send(&mut sender, &samples, room);
    let stop = if room < needed {
        OUT_OF_SPACE
    } else {
        ALL_SENT
    };
    assert_eq!(sent.stop, stop);
    assert_eq!(sent.written, needed.min(room / 2 * 2));
    assert_eq!(sent.taken, (sent.written / 2).saturating_sub(left));
    let position = before.position + (sent.written / 2).min(left) as u32;
    let after = (sender.position, sender.alignment);
    assert_eq!(after, (position, before.alignment));
}

/// Every number of alignment frames and every position with 0 to 3 samples and
/// every buffer up to 10 bytes past what these need.
#[test]
fn every_position_and_buffer() {
    let mut comparison = Comparison::new(703);
    for alignment in ALIGNMENTS {
        for position in 0..=sequence(alignment) {
            for length in 0..4 {
                let left = (sequence(alignment) - position) as usize;
                for room in 0..=2 * (left + length) + 10 {
                    let mut sender = lane_records::sender_with(alignment, &mut comparison.random);
                    sender.position = position;
                    send_from(&mut comparison, sender, length, room);
                }
            }
        }
    }
    comparison.end("every position and buffer", 1_000_000, &[0]);
}

/// A number that is no sample at each place of a list, with buffers that end
/// before it and after it.
#[test]
fn no_sample_at_each_place() {
    let mut comparison = Comparison::new(704);
    for length in 1..20 {
        for place in 0..length {
            for bad in [16384, 16385, 0x7FFF, 0x8000, u16::MAX] {
                for room in [0, 1, 2, 2 * place, 2 * place + 2, 2 * length + 3] {
                    let mut samples = samples(length, &mut comparison.random);
                    samples[place] = bad;
                    let mut sender = lane_records::sender(&mut comparison.random);
                    if room % 2 == 0 {
                        sender.position = sequence(sender.alignment);
                    }
                    let (sent, _) = comparison.send(&mut sender, &samples, room);
                    assert_eq!(sent.refusal, 4);
                }
            }
        }
    }
    comparison.end("no sample at each place", 0, &[4]);
}
