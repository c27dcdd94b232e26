//! What Q-2 promises, through the archive: "a fresh receiver given each byte
//! inverted hands out the same items, call by call, with the same totals.
//! Flipped bursts are included." Whole lists of calls are carried through a line
//! and the crossed line side by side; the slow version is not asked but for the
//! lock on a crossed line.

use std::array::from_fn;
use std::collections::BTreeSet;

use owsopel_tests::archive::{fail, short, Archive, ARCHIVE};
use owsopel_tests::crossed::{crossed, inverted};
use owsopel_tests::crossed_lines::Pair;
use owsopel_tests::lane_comparison::LaneComparison;
use owsopel_tests::lane_records::{self, sequence_bytes, ALIGNMENTS, MODES, PATTERNS};
use owsopel_tests::lines::{bytes_of, Damage, Line};
use owsopel_tests::random::Random;
use owsopel_tests::records::{Receiver, FEED_CALLS, FIRST, FLASH, HUNT, LOCKED, PROVE};
use owsopel_tests::reference::frame::{next, toggled, word};
use owsopel_tests::sum_trials::demand_sums;
use owsopel_tests::trials::{feed_line, sent_line};

type Comparison = LaneComparison<Archive>;

/// What a call gave, or the end of the test with what differs.
#[track_caller]
fn taken<T>(answer: Result<T, String>) -> T {
    answer.unwrap_or_else(|differs| fail(&differs))
}

// ---- Whole lines ----

/// The damage to a line, each kind.
const DAMAGE: [Damage; 11] = [
    Damage::None,
    Damage::Flips { apart: 30 },
    Damage::Flips { apart: 1_000 },
    Damage::Lost { apart: 3_000 },
    Damage::Added { apart: 3_000 },
    Damage::Noise { apart: 3_000 },
    Damage::Noise { apart: 300 },
    Damage::Bursts { apart: 8 },
    Damage::Bursts { apart: 100 },
    Damage::CloseBursts { apart: 3 },
    Damage::CloseBursts { apart: 100 },
];

/// The lines with each kind of damage.
const LINES: usize = 330;

/// Some sequences with that number of alignment frames, each with samples after
/// it, and damage to the frames of samples, at times to those of the sequence.
fn damaged_line(comparison: &mut Comparison, alignment: u32, damage: Damage) -> Vec<u8> {
    let mut bits = Vec::new();
    for _ in 0..1 + comparison.random.below(6) {
        let length = comparison.random.below(400);
        let (sent, ..) = sent_line(comparison, alignment, length);
        let (sequence, frames) = sent.split_at(sequence_bytes(alignment));
        let random = &mut comparison.random;
        let to_sequence = random.pick(&[Damage::None, Damage::None, damage]);
        bits.extend(to_sequence.done_to(sequence, random));
        bits.extend(damage.done_to(frames, random));
    }
    bytes_of(&bits)
}

fn totals_of(record: &Receiver) -> [u64; 3] {
    [record.samples, record.gaps, record.losses]
}

/// Lines with each kind of damage, from the pair of receivers that `start`
/// gives. With each kind there must be samples, gaps and losses.
#[track_caller]
fn lines(name: &str, seed: u64, start: fn(usize, &mut Random) -> Pair<'static>) {
    let mut comparison = Comparison::new(seed);
    comparison.slow = false;
    let (mut made, mut bytes) = (0, 0);
    for damage in DAMAGE {
        let mut totals = [0; 3];
        for index in 0..LINES {
            let line = damaged_line(&mut comparison, ALIGNMENTS[index % 11], damage);
            let random = &mut comparison.random;
            let largest = random.pick(&[6, 60, 600, 6_000]);
            let mut pair = start(index, random);
            let before = totals_of(&pair.plain);
            taken(pair.feed_line(&line, largest, 100, random));
            let after = totals_of(&pair.plain);
            totals = from_fn(|k| totals[k] + (after[k] - before[k]));
            made += pair.made;
            bytes += line.len();
        }
        let [samples, gaps, losses] = totals;
        println!("{name}, {damage:?}: {samples} samples, {gaps} gaps, {losses} losses");
        assert!(totals.iter().all(|total| *total > 0));
    }
    println!("{name}: {made} calls on each line, {bytes} bytes each");
    comparison.end(name, 1_000_000, &[0]);
}

/// "for every list of bytes and of feeding and SYNC calls, a fresh receiver".
#[test]
fn fresh_receivers() {
    lines("crossed, fresh", 1001, |_, _| Pair::fresh(&ARCHIVE));
}

#[test]
fn any_admitted_records() {
    lines("crossed, any record", 1002, |index, random| {
        Pair::from(&ARCHIVE, lane_records::receiver(MODES[index % 5], random))
    });
}

// ---- Lock on a crossed line ----

/// Any admitted record of a mode, noise, the crossed frames of one sequence and
/// of samples: the receiver must be Locked after it, with the sender's next
/// state and clock bit, and hand out the samples and nothing else after the
/// sequence; its sums must be those of the frames as they arrived.
#[track_caller]
fn lock_on_a_crossed_line(comparison: &mut Comparison, mode: u32, alignment: u32) {
    let before = lane_records::receiver(mode, &mut comparison.random);
    let noise = comparison.random.below(300);
    let length = comparison.random.below(30);
    let (sent, samples, sender) = sent_line(comparison, alignment, length);
    let frames = inverted(&sent);
    let mut line = Line::default();
    line.noise(noise, &mut comparison.random);
    line.bytes(&frames);
    let (line, _) = line.end(&mut comparison.random);
    let sequence = sequence_bytes(alignment);
    let (to_lock, rest) = line.split_at(noise.div_ceil(8) + sequence);

    let mut receiver = before;
    feed_line(comparison, &mut receiver, to_lock);
    let at_lock = receiver;
    let items = feed_line(comparison, &mut receiver, rest);
    demand_sums(&receiver, &frames[sequence..]);
    let expected = Receiver {
        mode: LOCKED,
        results: 0,
        state: sender.state,
        clock: sender.clock,
        losses: at_lock.losses,
        ..receiver
    };
    if receiver != expected || items != samples {
        fail(&format!(
            "from {before:?}, {noise} bits of noise, crossed with {alignment} alignment frames, \
             samples {}; line {}\n  after it {receiver:?}, items {}",
            short(&samples),
            short(&line),
            short(&items),
        ));
    }
}

/// Each mode equally often with each number of alignment frames, one line in 20
/// with the slow version beside.
#[test]
fn lock_on_a_crossed_line_from_any_record() {
    let mut comparison = Comparison::new(1003);
    for index in 0..55_000 {
        comparison.slow = index / 55 % 20 == 0;
        let (mode, alignment) = (MODES[index % 5], ALIGNMENTS[index / 5 % 11]);
        lock_on_a_crossed_line(&mut comparison, mode, alignment);
    }
    comparison.end("lock on a crossed line", 55_000 * 54, &[0, 4]);
}

// ---- Single bytes ----

/// A frame with which the record's mode goes on, inverted or not; in Hunt the
/// pattern. First gets data that such a frame can follow.
fn awaited(record: &mut Receiver, random: &mut Random) -> u32 {
    let step = |state| next(state).expect("the state is in range");
    let (data, clock) = match record.mode {
        HUNT => return random.pick(&PATTERNS),
        FLASH => return record.frame ^ 0xFFFF,
        FIRST => {
            let state = lane_records::state(random);
            record.word = word(state).into();
            (word(step(state)), toggled(record.clock))
        }
        PROVE => (word(record.state), toggled(record.clock)),
        _ => (random.below(16384) as u16, record.clock),
    };
    let frame = u32::from(data) | clock << 14;
    random.pick(&[frame, frame ^ 0xFFFF])
}

/// An admitted record of a mode that holds so many bits: by `kind` zeros, ones,
/// any, or the first ones of what its mode awaits.
fn holding(mode: u32, count: u32, kind: usize, random: &mut Random) -> Receiver {
    let mut record = lane_records::receiver(mode, random);
    let awaited = awaited(&mut record, random);
    let bits = [0, u32::MAX, random.word(), awaited][kind];
    Receiver {
        bits: (u64::from(bits) % (1 << count)) as u32,
        count,
        ..record
    }
}

/// The modes that each mode can go to in a byte, in their order.
const NEXT_MODES: [(u32, &[u32]); 5] = [
    (HUNT, &[HUNT, FLASH]),
    (FLASH, &[FLASH, FIRST]),
    (FIRST, &[HUNT, FIRST, PROVE]),
    (PROVE, &[HUNT, PROVE, LOCKED]),
    (LOCKED, &[HUNT, LOCKED]),
];

/// Every byte and its inverse by both feeding calls, from records of each mode
/// with each number of bits held, with one slot lent and with none; and the SYNC
/// call.
#[test]
fn every_byte_from_every_count() {
    let mut random = Random::new(1004);
    let mut made = 0;
    for (mode, next_modes) in NEXT_MODES {
        let mut met = BTreeSet::new();
        let most = if mode == HUNT { 32 } else { 15 };
        for (count, index) in (0..=most).flat_map(|count| (0..120).map(move |k| (count, k))) {
            let record = holding(mode, count, index % 4, &mut random);
            for byte in 0..=255 {
                let slots = random.slots(usize::from(index % 5 != 0));
                let both = FEED_CALLS.map(|call| {
                    let mut pair = Pair::from(&ARCHIVE, record);
                    let fed = taken(pair.feed(call, &[byte], &slots));
                    (pair, fed)
                });
                let [(mut pair, fed), (_, fed_frames)] = both;
                assert_eq!(fed, fed_frames, "{record:?}, byte {byte:#x}");
                met.insert(pair.plain.mode);
                taken(pair.sync());
                made += pair.made + 1;
            }
        }
        assert!(met.iter().eq(next_modes), "from mode {mode}: {met:?}");
    }
    println!("every byte from every count: {made} calls on each line");
}

// ---- The crossed record ----

/// Crossing twice gives the record again, but for a sum at the lower limit, and
/// the crossed record is admitted.
#[test]
fn crossed_records() {
    let mut random = Random::new(1005);
    for index in 0..100_000 {
        let record = lane_records::receiver(MODES[index % 5], &mut random);
        let other = crossed(&record);
        assert_eq!((ARCHIVE.ows_receiver_sync)(other).refusal, 0, "{other:?}");
        let sums = record.sums().map(|sum| sum.max(-i32::MAX));
        assert_eq!(crossed(&other), record.with_sums(sums));
    }
}
