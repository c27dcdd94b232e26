//! Senders started through the archive, with any seed and any number of
//! alignment frames.

use owsopel_tests::archive::{fail, Archive};
use owsopel_tests::lane_comparison::LaneComparison;
use owsopel_tests::lane_records::{self, wrong_alignments, ALIGNMENTS};
use owsopel_tests::records::{Sender, Started};

type Comparison = LaneComparison<Archive>;

/// Seeds of every kind with their refusal, 0 where permitted. One above 0x1FFFF
/// may have the word 0x00FF too.
const SEEDS: [(u32, u8); 16] = [
    (0, 1),
    (0x20000, 1),
    (0x200FF, 1),
    (0x2C0FF, 1),
    (0x8000_0001, 1),
    (u32::MAX, 1),
    (0x000FF, 2),
    (0x040FF, 2),
    (0x100FF, 2),
    (0x1C0FF, 2),
    (1, 0),
    (0x000FE, 0),
    (0x00100, 0),
    (0x04000, 0),
    (0x15555, 0),
    (0x1FFFF, 0),
];

/// Starts a sender: the refusal must be this one, with zeros, and without one
/// the sender must be fresh and keep the number.
#[track_caller]
fn demand_started(comparison: &mut Comparison, seed: u32, alignment: u32, refusal: u8) {
    let fresh = Sender {
        seed,
        state: seed,
        alignment,
        ..Sender::default()
    };
    let sender = match refusal {
        0 => fresh,
        _ => Sender::default(),
    };
    let started = comparison.start_with(seed, alignment);
    if started != (Started { refusal, sender }) {
        fail(&format!(
            "seed {seed:#x}, {alignment} alignment frames gave {started:?}, not refusal {refusal}"
        ));
    }
}

/// Every kind of seed with every number. A seed of refusal 1 or 2 gives it with
/// a number that is not permitted as well: this is the test that shows the order
/// 1, 2, 19.
#[test]
fn every_seed_with_every_number() {
    let mut comparison = Comparison::new(801);
    for (seed, refusal) in SEEDS {
        for alignment in ALIGNMENTS {
            demand_started(&mut comparison, seed, alignment, refusal);
        }
        for alignment in wrong_alignments() {
            let refusal = if refusal == 0 { 19 } else { refusal };
            demand_started(&mut comparison, seed, alignment, refusal);
        }
    }
    comparison.end("every seed with every number", 0, &[0, 1, 2, 19]);
}

/// Numbers of any size, with seeds of every kind.
#[test]
fn any_seed_with_any_number() {
    let mut comparison = Comparison::new(802);
    for index in 0..200_000 {
        let random = &mut comparison.random;
        let alignment = random.word() >> random.below(32);
        let (seed, refusal) = match index % 2 {
            0 => SEEDS[index / 2 % 16],
            _ => (lane_records::seed(random), 0),
        };
        let refusal = match refusal {
            0 if !ALIGNMENTS.contains(&alignment) => 19,
            _ => refusal,
        };
        demand_started(&mut comparison, seed, alignment, refusal);
    }
    comparison.end("any seed with any number", 0, &[0, 1, 2, 19]);
}

/// Starting without a number is starting with 32: every kind of seed, every seed
/// there is and some beyond.
#[test]
fn starting_without_a_number_is_starting_with_32() {
    let mut comparison = Comparison::new(803);
    let listed = SEEDS.into_iter().map(|(seed, _)| seed);
    for seed in listed.chain(0..0x24000) {
        let started = comparison.start(seed);
        assert_eq!(comparison.start_with(seed, 32), started);
    }
    comparison.end("starting without a number", 0, &[0, 1, 2]);
}
