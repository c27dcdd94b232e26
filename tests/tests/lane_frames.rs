//! One frame or one pattern in each mode of the receiver, through the archive
//! and against the slow version: those on which a mode decides, right ones and
//! ones that are almost right.

use std::collections::BTreeSet;

use owsopel_tests::archive::Archive;
use owsopel_tests::awaited::frame;
use owsopel_tests::lane_comparison::LaneComparison;
use owsopel_tests::lane_records::{self, all_results, PATTERNS, STATES};
use owsopel_tests::lines::Line;
use owsopel_tests::random::Random;
use owsopel_tests::records::{first, flash, locked, prove};
use owsopel_tests::records::{Receiver, FIRST, FLASH, HUNT, LOCKED, PROVE};
use owsopel_tests::reference::frame::{next, word};
use owsopel_tests::reference::strip::GAP;
use owsopel_tests::sum_trials::sums_after;

type Comparison = LaneComparison<Archive>;

/// The word of the next state, and 0 for the state 0, which is none.
fn next_word(state: u32) -> u16 {
    next(state).map_or(0, word)
}

/// Feeds a frame whose first bits the record holds, and bits of any kind up to
/// a whole byte. The record gets sums of any kind.
#[track_caller]
fn feed_frame(comparison: &mut Comparison, record: Receiver, frame: u16) -> Receiver {
    let mut receiver = record.with_sums(lane_records::sums(&mut comparison.random));
    receiver.bits = u32::from(frame) % (1 << record.count);
    let mut line = Line::default();
    let rest = 16 - record.count;
    let bits = u32::from(frame) >> record.count;
    line.bits(bits, rest.min(8));
    line.bits(bits >> 8, rest.saturating_sub(8));
    let (line, _) = line.end(&mut comparison.random);
    comparison.feed(&mut receiver, &line, line.len());
    receiver
}

/// First with every s, 0 among them: its two words, with the clock bit that
/// toggles and with the one that does not, and with a bit of the data flipped.
#[test]
fn every_recovered_state() {
    let mut comparison = Comparison::new(601);
    let mut proved = 0;
    for s in 0..=0x1FFFF {
        let (p, q) = (s % 16384, next_word(s));
        let flipped = q ^ (1 << comparison.random.below(14));
        for clock in 0..=1 {
            for (now, data) in [(clock + 1, q), (clock, q), (clock + 1, flipped)] {
                let frame = frame(now, data, &mut comparison.random);
                let after = feed_frame(&mut comparison, first(p, clock), frame);
                proved += u64::from(after.mode == PROVE);
            }
        }
    }
    // A flipped bit may make the two words of another state.
    println!("every recovered state: {proved} times to Prove");
    assert!((2 * 0x1FFFF..3 * 0x1FFFF).contains(&proved));
    comparison.end("every recovered state", 0, &[0]);
}

/// Prove and Locked with every state: its word and one with a bit flipped, with
/// both clock bits.
#[test]
fn every_state_in_prove_and_locked() {
    let mut comparison = Comparison::new(602);
    let all_results = all_results();
    for state in 1..=0x1FFFF {
        let flipped = word(state) ^ (1 << comparison.random.below(14));
        let read = 2 + state % 30;
        let results = all_results[state as usize % all_results.len()];
        for clock in 0..=1 {
            for data in [word(state), flipped] {
                let held = comparison.random.below(2) as u32;
                let frame = frame(clock, data, &mut comparison.random);
                feed_frame(&mut comparison, prove(read, state, held), frame);
                feed_frame(&mut comparison, locked(results, state, held), frame);
            }
        }
    }
    comparison.end("every state in Prove and Locked", 0, &[0]);
}

/// A record in Locked and a frame, a faulty one if `faulty` is 1, must do what
/// Q-3 says, and its sums what Q-5 says; results of four faulty frames or more,
/// or above 255, are refused.
#[track_caller]
fn judge_results(comparison: &mut Comparison, record: Receiver, faulty: u32) {
    let record = record.with_sums(lane_records::sums(&mut comparison.random));
    let sample = comparison.random.below(16384) as u16;
    let data = sample ^ word(record.state);
    let frame = frame(record.clock + faulty, data, &mut comparison.random);
    let (mut receiver, mut synced) = (record, record);
    let refusal = comparison.receiver_sync(&mut synced);
    let (fed, items) = comparison.feed(&mut receiver, &frame.to_le_bytes(), 2);
    if record.results > 255 || record.results.count_ones() > 3 {
        assert_eq!([refusal, fed.refusal], [3, 3]);
        assert_eq!([synced, receiver], [record, record]);
        return;
    }
    assert_eq!([refusal, fed.refusal], [0, 0]);
    let results = (2 * record.results + faulty) % 256;
    let after = match results.count_ones() {
        4 => Receiver::default(),
        _ => locked(results, next(record.state).unwrap(), 1 - record.clock),
    };
    let expected = Receiver {
        samples: u64::from(1 - faulty),
        gaps: u64::from(faulty),
        losses: u64::from(after.mode == HUNT),
        ..after.with_sums(sums_after(record.sums(), &frame.to_le_bytes()))
    };
    assert_eq!(receiver, expected);
    assert_eq!(items, [if faulty == 1 { GAP } else { sample }]);
}

/// Locked with every number of eight bits as results, and with larger ones.
#[test]
fn every_number_as_results() {
    let mut comparison = Comparison::new(606);
    let larger = (8..32).flat_map(|k| [1 << k, (1 << k) + 1, u32::MAX >> (31 - k)]);
    for results in (0..256).chain(larger) {
        for state in [1, 8, 0x4000, 0x000FF, 0x15555, 0x1FFFF] {
            for (clock, faulty) in [(0, 0), (0, 1), (1, 0), (1, 1)] {
                judge_results(&mut comparison, locked(results, state, clock), faulty);
            }
        }
    }
    comparison.end("every number as results", 0, &[0, 3]);
}

/// Every frame in each mode that judges frames.
#[test]
fn every_frame() {
    let mut comparison = Comparison::new(603);
    for frame in 0..=u16::MAX {
        for held in [0x00FF, 0xFF00] {
            feed_frame(&mut comparison, flash(held), frame);
        }
        for mode in [FIRST, PROVE, LOCKED] {
            let mut record = lane_records::receiver(mode, &mut comparison.random);
            record.count = 0;
            feed_frame(&mut comparison, record, frame);
        }
    }
    comparison.end("every frame", 0, &[0]);
}

/// A frame that the record's mode awaits, or almost.
fn awaited(record: &Receiver, random: &mut Random) -> u16 {
    let awaited = match record.mode {
        LOCKED => record.clock,
        _ => record.clock + 1,
    };
    let clock = match random.below(4) {
        0 => awaited + 1,
        _ => awaited,
    };
    let frame = match record.mode {
        FLASH => match random.below(4) {
            0 => record.frame as u16,
            _ => !record.frame as u16,
        },
        FIRST => {
            let s = record.word + 16384 * random.below(8) as u32;
            frame(clock, next_word(s), random)
        }
        _ => frame(clock, word(record.state), random),
    };
    match random.below(4) {
        0 => frame ^ (1 << random.below(16)),
        _ => frame,
    }
}

/// Any admitted record of each mode, any number of bits held, a frame that the
/// mode awaits, or almost. All results come up with both clock bits and with
/// every kind of state: each that stands out, and others.
#[test]
fn awaited_frames_at_any_bit() {
    let mut comparison = Comparison::new(604);
    let mut met = BTreeSet::new();
    for index in 0..400_000 {
        let mode = [FLASH, FIRST, PROVE, LOCKED][index % 4];
        let mut record = lane_records::receiver(mode, &mut comparison.random);
        if mode == FIRST && index % 3 == 0 {
            record.word %= 2;
        }
        if mode == LOCKED {
            let kind = STATES.iter().position(|state| *state == record.state);
            met.insert((record.results, record.clock, kind));
        }
        let frame = awaited(&record, &mut comparison.random);
        feed_frame(&mut comparison, record, frame);
    }
    assert_eq!(met.len(), 93 * 2 * (STATES.len() + 1));
    comparison.end("awaited frames at any bit", 0, &[0]);
}

/// Hunt with any bits held, some bits, the pattern whole or with a bit flipped
/// or its start lost, and some bytes.
#[test]
fn patterns_at_any_bit() {
    let mut comparison = Comparison::new(605);
    let mut found = 0;
    for _ in 0..200_000 {
        let mut receiver = lane_records::receiver(HUNT, &mut comparison.random);
        if comparison.random.one_in(2) {
            (receiver.bits, receiver.count) = (0, 0);
        }
        let random = &mut comparison.random;
        let mut pattern = random.pick(&PATTERNS);
        if random.one_in(4) {
            pattern ^= 1 << random.below(32);
        }
        let lost = if random.one_in(4) {
            random.below(12)
        } else {
            0
        };
        let mut line = Line::default();
        let before = random.pick(&[0, 0, 3, 40]);
        line.noise(random.below(before + 1), random);
        for k in lost..32 {
            line.bits(pattern >> k, 1);
        }
        line.noise(random.below(9), random);
        let (line, _) = line.end(random);
        comparison.feed(&mut receiver, &line, line.len());
        found += u64::from(receiver.mode == FLASH);
    }
    println!("patterns at any bit: {found} found");
    assert!((80_000..180_000).contains(&found));
    comparison.end("patterns at any bit", 0, &[0]);
}
