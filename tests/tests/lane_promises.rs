//! What the lane promises, through the archive: lock from any record, lock lost
//! to alignment frames, spaced bursts, balance. It is checked by itself; on a
//! part of the lines the slow version runs beside. Every permitted number of
//! alignment frames has its share.

use std::collections::BTreeMap;

use owsopel_tests::archive::{fail, Archive};
use owsopel_tests::lane_comparison::LaneComparison;
use owsopel_tests::lane_records::{self, all_results, sequence_bytes, ALIGNMENTS, MODES};
use owsopel_tests::lines::{bits_of, BETWEEN};
use owsopel_tests::long_lines::{samples, size};
use owsopel_tests::records::{flash, locked, Receiver, Sender};
use owsopel_tests::records::{FLASH, HUNT, LOCKED, OUT_OF_SPACE};
use owsopel_tests::reference::strip::GAP;
use owsopel_tests::trials::{feed_line, lock_from_any_record, sent_line, spaced_bursts_on_a_line};

type Comparison = LaneComparison<Archive>;

/// The receiver's records of all modes from which a lock is demanded.
const RECORDS: usize = 1_000_000;

/// One line in so many has the slow version beside.
const SLOW: usize = 20;

/// Half of the records, so that two tests share them. Each mode comes up equally
/// often with each number of alignment frames, with the slow version beside and
/// without: 11 and 20 have no common divisor. The numbers are counted from what
/// was sent.
fn lock_from_records(name: &str, seed: u64) {
    let mut comparison = Comparison::new(seed);
    let mut locks = BTreeMap::new();
    for index in 0..RECORDS / 2 {
        let (mode, alignment) = (MODES[index % 5], ALIGNMENTS[index / 5 % 11]);
        comparison.slow = index / 5 % SLOW == 0;
        let sent = lock_from_any_record(&mut comparison, mode, alignment);
        *locks.entry((sent, mode)).or_insert(0) += 1;
    }
    for alignment in ALIGNMENTS {
        let times = MODES.map(|mode| locks[&(alignment, mode)]);
        println!("{name}: {alignment} alignment frames, locks by mode: {times:?}");
        assert!(times.iter().all(|times| *times >= RECORDS / 2 / 55));
    }
    comparison.end(name, 54 * RECORDS as u64 / 2, &[0, 4]);
}

#[test]
fn lock_from_any_record_first_half() {
    lock_from_records("lock from any record, first half", 301);
}

#[test]
fn lock_from_any_record_second_half() {
    lock_from_records("lock from any record, second half", 302);
}

// ---- Alignment frames ----

/// Two alignment frames, as positions 0 and 1 send them.
const ALIGNMENT: [u8; 4] = [0x00, 0xFF, 0xFF, 0x00];

/// Alignment frames to a receiver in Locked that holds some bits of a frame.
/// All frames after that one have the same clock bit, so every second is faulty
/// and eight of them lose lock, within 15 + 8 × 16 bits. Twelve alignment
/// frames, the fewest that Q-7 permits, lead to Flash.
#[track_caller]
fn alignment_loses_lock(comparison: &mut Comparison, record: Receiver) {
    let line = ALIGNMENT.repeat(6);
    let mut receiver = record;
    comparison.feed(&mut receiver, &line[..18], 18);
    // Of the 144 bits, Hunt has read at least the last.
    let has_hunted = receiver.mode == FLASH || receiver.mode == HUNT && receiver.count > 0;
    assert!(has_hunted, "{record:?}, after 144 bits {receiver:?}");
    comparison.feed(&mut receiver, &line[18..], 6);
    let expected = Receiver {
        samples: receiver.samples,
        gaps: receiver.gaps,
        losses: record.losses.saturating_add(1),
        ..flash(0x00FF).with_sums(receiver.sums())
    };
    assert_eq!(receiver, expected, "{record:?}");
}

/// All results with both clock bits, at every bit of a frame.
#[test]
fn alignment_loses_lock_from_any_record() {
    let mut comparison = Comparison::new(307);
    for results in all_results() {
        for count in 0..16 {
            for index in 0..8 {
                let word = comparison.random.word();
                let record = Receiver {
                    results,
                    bits: [0, u32::MAX, word, word][index / 2] % (1 << count),
                    count,
                    clock: index as u32 % 2,
                    ..lane_records::receiver(LOCKED, &mut comparison.random)
                };
                alignment_loses_lock(&mut comparison, record);
            }
        }
    }
    comparison.end("alignment loses lock", 0, &[0]);
}

/// Ten alignment frames do not lead from every record to Flash: here Hunt is a
/// bit short of the pattern.
#[test]
fn ten_alignment_frames_are_too_few() {
    let mut comparison = Comparison::new(308);
    let record = Receiver {
        bits: 0x7FFF,
        count: 15,
        ..locked(0, 1, 1)
    };
    let mut receiver = record;
    comparison.feed(&mut receiver, &ALIGNMENT.repeat(5), 20);
    assert_eq!((receiver.mode, receiver.count), (HUNT, 31));
    alignment_loses_lock(&mut comparison, record);
    comparison.end("ten alignment frames", 0, &[]);
}

// ---- Bursts ----

#[test]
fn spaced_bursts() {
    let mut comparison = Comparison::new(303);
    for index in 0..22_000 {
        comparison.slow = index % SLOW == 0;
        let length = comparison.random.below(300);
        spaced_bursts_on_a_line(&mut comparison, ALIGNMENTS[index % 11], length);
    }
    comparison.end("spaced bursts", 4_000_000, &[0, 4]);
}

/// Bursts of two frames with their clock bits flipped, two or many, from any
/// place after the sequence on. With five untouched frames between them, the
/// touched ones are gaps and the others their samples; with four, the second
/// burst's last frame is the fourth faulty one of eight.
#[test]
fn bursts_just_far_enough_and_one_frame_closer() {
    let mut comparison = Comparison::new(309);
    for (first, bursts) in (0..60).flat_map(|first| [(first, 2), (first, 25)]) {
        let alignment = ALIGNMENTS[first % 11];
        for between in [BETWEEN, BETWEEN - 1] {
            let (mut line, mut expected, _) = sent_line(&mut comparison, alignment, 240);
            let starts = (0..bursts).map(|burst| first + (2 + between) * burst);
            let touched: Vec<usize> = starts.flat_map(|start| [start, start + 1]).collect();
            for frame in &touched {
                line[sequence_bytes(alignment) + 2 * frame + 1] ^= 0x40;
                expected[*frame] = GAP;
            }
            let is_kept = between == BETWEEN;
            if !is_kept {
                expected.truncate(touched[3] + 1);
            }
            let mut receiver = comparison.fresh();
            let items = feed_line(&mut comparison, &mut receiver, &line);
            assert_eq!(items, expected);
            let (mode, losses) = if is_kept { (LOCKED, 0) } else { (HUNT, 1) };
            assert_eq!((receiver.mode, receiver.losses), (mode, losses));
        }
    }
    comparison.end("bursts five and four frames apart", 70_000, &[0]);
}

// ---- Balance ----

/// The count of ones minus zeros on a line since it began, and its last run.
#[derive(Default)]
struct Balance {
    count: i32,
    last: bool,
    run: u32,
    longest: u32,
    bits: u64,
}

impl Balance {
    /// Counts whole frames; the count must keep within its limits.
    #[track_caller]
    fn add(&mut self, bytes: &[u8]) {
        for bit in bits_of(bytes) {
            self.count += if bit { 1 } else { -1 };
            self.run = if bit == self.last { self.run + 1 } else { 1 };
            self.last = bit;
            self.longest = self.longest.max(self.run);
            self.bits += 1;
            let most = if self.bits.is_multiple_of(16) { 16 } else { 24 };
            if self.count.abs() > most || self.run > 32 {
                let Balance {
                    count, run, bits, ..
                } = self;
                fail(&format!("after {bits} bits: count {count}, run {run}"));
            }
        }
    }
}

/// A sender just started with that number of alignment frames.
#[track_caller]
fn started(comparison: &mut Comparison, seed: u32, alignment: u32) -> Sender {
    let started = comparison.start_with(seed, alignment);
    assert_eq!((started.refusal, started.sender.alignment), (0, alignment));
    started.sender
}

/// "SYNC and sending calls in any order, from a record just started." Each
/// number of alignment frames in turn.
#[test]
fn balance() {
    let mut comparison = Comparison::new(304);
    let mut longest = 0;
    for alignment in (0..1_210).map(|index| ALIGNMENTS[index % 11]) {
        comparison.slow = comparison.random.one_in(SLOW);
        // Words of many equal bits make long runs.
        let seed = match comparison.random.below(3) {
            0 => comparison
                .random
                .pick(&[0x4000, 0x3FFF, 0x1FFFF, 0x1C000, 1]),
            _ => lane_records::seed(&mut comparison.random),
        };
        let mut sender = started(&mut comparison, seed, alignment);
        let mut balance = Balance::default();
        for _ in 0..comparison.random.below(120) {
            if comparison.random.one_in(3) {
                comparison.sync(&mut sender);
            }
            let length = size(100, &mut comparison.random);
            let samples = samples(length, &mut comparison.random);
            let room = size(300, &mut comparison.random);
            balance.add(&comparison.send(&mut sender, &samples, room).1);
            if sender.r != balance.count {
                fail(&format!("count {}, but {sender:?}", balance.count));
            }
        }
        longest = longest.max(balance.longest);
    }
    println!("balance: the longest run is {longest}");
    comparison.end("balance", 1_500_000, &[0]);
}

/// Samples that a sender's state turns to data of zeros or of ones, so that R
/// goes to its ends.
#[test]
fn balance_with_the_worst_samples() {
    let mut comparison = Comparison::new(305);
    for alignment in (0..220).map(|index| ALIGNMENTS[index % 11]) {
        let seed = lane_records::seed(&mut comparison.random);
        let mut sender = started(&mut comparison, seed, alignment);
        let mut balance = Balance::default();
        let room = sequence_bytes(alignment);
        balance.add(&comparison.send(&mut sender, &[], room).1);
        for _ in 0..500 {
            let word = (sender.state % 16384) as u16;
            let data = comparison.random.pick(&[0, 0x3FFF, 0x00FF, 0x3F00]);
            balance.add(&comparison.send(&mut sender, &[data ^ word], 2).1);
        }
    }
    comparison.end("balance with the worst samples", 110_000, &[0]);
}

/// The longest run there is: seed 0x4000, whose word is 0, the alignment frames
/// and one frame, SYNC, one frame.
#[test]
fn the_longest_run_is_32() {
    let mut comparison = Comparison::new(306);
    for alignment in ALIGNMENTS {
        let mut sender = started(&mut comparison, 0x4000, alignment);
        let mut balance = Balance::default();
        let room = 2 * (alignment as usize + 1);
        let (sent, bytes) = comparison.send(&mut sender, &[], room);
        assert_eq!((sent.stop, sent.written), (OUT_OF_SPACE, room));
        balance.add(&bytes);
        assert_eq!(comparison.sync(&mut sender), 0);
        balance.add(&comparison.send(&mut sender, &[], 2).1);
        assert_eq!((balance.longest, balance.count), (32, -16));
    }
    comparison.end("the longest run", 11 * (22 + 2), &[]);
}
