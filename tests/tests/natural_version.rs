//! The natural versions against the slow version, so that the benchmark
//! compares the archive with code that keeps the same rules.

use owsopel_tests::answers::Strips;
use owsopel_tests::comparison::Comparison as StripComparison;
use owsopel_tests::lane_comparison::LaneComparison;
use owsopel_tests::lane_records::{self, wrong_alignments, ALIGNMENTS, MODES};
use owsopel_tests::lines::{Damage, Line};
use owsopel_tests::lists::{fixed_lists, gap_lists, random_list, runs_list, spoiled, RUNS};
use owsopel_tests::long_lines::{run, Kind};
use owsopel_tests::natural::{ByBytes, ByPairs, Natural};
use owsopel_tests::ranges::{receiver_parts, sender_parts};
use owsopel_tests::records::{Lane, LOCKED};
use owsopel_tests::strip_trials::{in_both, made_of_runs, take_bytes, write_in_both};
use owsopel_tests::trials::{lock_from_any_record, sent_line, spaced_bursts_on_a_line};

#[test]
fn long_lines() {
    run_long_lines::<Natural>(401);
}

#[test]
fn long_lines_by_bytes() {
    run_long_lines::<ByBytes>(405);
}

#[test]
fn long_lines_by_two_bytes() {
    run_long_lines::<ByPairs>(406);
}

fn run_long_lines<L: Lane>(seed: u64) {
    let kind = Kind {
        damage: &[
            Damage::None,
            Damage::Bursts { apart: 10 },
            Damage::CloseBursts { apart: 10 },
            Damage::Flips { apart: 300 },
            Damage::Lost { apart: 8_000 },
            Damage::Added { apart: 8_000 },
            Damage::Noise { apart: 8_000 },
        ],
        sync_one_in: 12,
        receiver_sync_one_in: 500,
        largest: 100,
    };
    let mut comparison = LaneComparison::<L>::new(seed);
    let totals = run(&mut comparison, &kind, 1_000_000);
    assert!(totals.samples > 100_000 && totals.gaps > 1_000 && totals.losses > 100);
    comparison.end(&format!("{}, long lines", L::NAME), 1_000_000, &[0, 4]);
}

#[test]
fn lock_and_bursts() {
    run_lock_and_bursts::<Natural>(402);
}

#[test]
fn lock_and_bursts_by_bytes() {
    run_lock_and_bursts::<ByBytes>(407);
}

#[test]
fn lock_and_bursts_by_two_bytes() {
    run_lock_and_bursts::<ByPairs>(408);
}

fn run_lock_and_bursts<L: Lane>(seed: u64) {
    let mut comparison = LaneComparison::<L>::new(seed);
    for index in 0..10_000 {
        let alignment = ALIGNMENTS[index / 5 % 11];
        lock_from_any_record(&mut comparison, MODES[index % 5], alignment);
        if index % 20 == 0 {
            spaced_bursts_on_a_line(&mut comparison, alignment, 200);
        }
    }
    comparison.end(&format!("{}, lock and bursts", L::NAME), 640_000, &[0, 4]);
}

/// A record of each mode with any number of bits held, up to 20 bytes of any
/// kind, and at most one slot more.
#[test]
fn short_calls() {
    run_short_calls::<Natural>(409);
    run_short_calls::<ByBytes>(410);
    run_short_calls::<ByPairs>(411);
}

fn run_short_calls<L: Lane>(seed: u64) {
    let mut comparison = LaneComparison::<L>::new(seed);
    for index in 0..20_000 {
        let mut record = lane_records::receiver(MODES[index % 5], &mut comparison.random);
        let length = comparison.random.below(21);
        let room = comparison.random.below(length + 2);
        let bytes = comparison.random.bytes(length);
        comparison.feed(&mut record, &bytes, room);
    }
    comparison.end(&format!("{}, short calls", L::NAME), 0, &[0]);
}

/// A sequence after 0 to 15 bits of any kind, then samples in calls of 0 to 5
/// bytes with 0 to 3 slots: every number of bits held before every such call.
#[test]
fn offsets() {
    run_offsets::<Natural>(412);
    run_offsets::<ByBytes>(413);
    run_offsets::<ByPairs>(414);
}

fn run_offsets<L: Lane>(seed: u64) {
    let mut comparison = LaneComparison::<L>::new(seed);
    for index in 0..160 {
        let alignment = ALIGNMENTS[index % 11];
        let (sent, samples, _) = sent_line(&mut comparison, alignment, 200);
        let mut line = Line::default();
        line.noise(index % 16, &mut comparison.random);
        line.bytes(&sent);
        let (line, _) = line.end(&mut comparison.random);
        let (mut record, mut items) = (comparison.fresh(), Vec::new());
        let mut rest = &line[..];
        while !rest.is_empty() {
            let length = comparison.random.below(6).min(rest.len());
            let room = comparison.random.below(4);
            let (fed, slots) = comparison.feed(&mut record, &rest[..length], room);
            items.extend(slots);
            rest = &rest[fed.bytes..];
        }
        assert_eq!((record.mode, items), (LOCKED, samples));
    }
    comparison.end(&format!("{}, offsets", L::NAME), 32_000, &[0]);
}

/// Every part of a record in and out of its range.
#[test]
fn records() {
    let mut comparison = LaneComparison::<Natural>::new(403);
    for seed in 0..0x24000 {
        comparison.start(seed);
    }
    for alignment in wrong_alignments().into_iter().chain(ALIGNMENTS) {
        for seed in [0, 1, 0x000FF, 0x1FFFF, 0x200FF] {
            comparison.start_with(seed, alignment);
        }
    }
    for index in 0..100 {
        let record = lane_records::sender(&mut comparison.random);
        for part in sender_parts(&record) {
            let mut values = part.values_in(&mut comparison.random);
            values.extend(part.values_out(&mut comparison.random));
            for value in values {
                let mut record = record;
                (part.set)(&mut record, value);
                comparison.send(&mut record, &[5], 7);
                comparison.sync(&mut record);
            }
        }
        let record = lane_records::receiver(MODES[index % 5], &mut comparison.random);
        for part in receiver_parts(&record) {
            let mut values = part.values_in(&mut comparison.random);
            values.extend(part.values_out(&mut comparison.random));
            for value in values {
                let mut record = record;
                (part.set)(&mut record, value);
                comparison.feed(&mut record, &[0x5A; 4], 3);
                comparison.receiver_sync(&mut record);
            }
        }
    }
    comparison.end("natural version, records", 500, &[0, 1, 2, 3, 19]);
}

/// Lists of up to 40 items and of about 4096, and gaps round the longest runs, in
/// buffers about as long as the strip; their strips cut, with bytes after, with a
/// bit flipped, and with slots about as many as the items, read, checked and
/// converted. All in both forms.
#[test]
fn strips() {
    run_strips::<Natural>(404);
}

fn run_strips<S: Strips>(seed: u64) {
    let mut comparison = StripComparison::<S>::new(seed);
    let mut lists = Vec::new();
    for length in (0..=40).chain([4095, 4096, 4097]) {
        lists.extend(fixed_lists(length));
        lists.extend((0..8).map(|_| random_list(length, &mut comparison.random)));
        lists.extend((0..4).map(|_| runs_list(length, 300, &mut comparison.random)));
    }
    for gaps in RUNS {
        lists.extend(gap_lists(gaps, &mut comparison.random));
    }
    for items in lists {
        let lane = comparison.random.byte();
        write_in_both(&mut comparison, lane, &items);
        for bad in spoiled(&items, &mut comparison.random) {
            write_in_both(&mut comparison, lane, &bad);
        }
        for bytes in in_both(lane, &items[..items.len().min(4096)]) {
            take_spoiled(&mut comparison, &bytes);
        }
    }
    let answers = [0, 6, 7, 8, 9, 10, 11, 12, 13, 20, 21];
    comparison.end(&format!("{}, strips", S::NAME), 500_000, &answers);
}

fn take_spoiled<S: Strips>(comparison: &mut StripComparison<S>, bytes: &[u8]) {
    take_bytes(comparison, bytes);
    take_bytes(comparison, &[bytes, &[0xFF; 9]].concat());
    let whole = bytes.len();
    for cut in (1..7).chain([whole / 2]).filter(|cut| *cut <= whole) {
        take_bytes(comparison, &bytes[..whole - cut]);
        take_bytes(comparison, &bytes[..cut]);
    }
    for place in [0, 1, whole - 1, whole - 1, comparison.random.below(whole)] {
        let mut flipped = bytes.to_vec();
        flipped[place] ^= 1 << comparison.random.below(8);
        take_bytes(comparison, &flipped);
    }
}

/// Sequences of samples and runs of any kind, and every first two bytes before
/// zeros.
#[test]
fn bytes_of_strips() {
    run_bytes::<Natural>(415);
}

fn run_bytes<S: Strips>(seed: u64) {
    let mut comparison = StripComparison::<S>::new(seed);
    for _ in 0..20_000 {
        let bytes = made_of_runs(8, &mut comparison.random);
        take_bytes(&mut comparison, &bytes);
    }
    for first in 0..=u16::MAX {
        let [high, low] = first.to_be_bytes();
        let bytes = [high, low, 7, 0, 0, 0];
        comparison.read(&bytes, 24);
        comparison.check(&bytes);
        comparison.shorten(&bytes, 30);
        comparison.expand(&bytes, 30);
    }
    let answers = [0, 8, 9, 10, 11, 12, 13, 20, 21];
    comparison.end(&format!("{}, bytes", S::NAME), 500_000, &answers);
}
