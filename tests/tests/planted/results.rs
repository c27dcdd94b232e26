//! Mistakes in Locked's results and expected clock bit, which document 02's Q-3
//! brought.

use owsopel_tests::archive::{Calls, Feed};
use owsopel_tests::records;
use owsopel_tests::reference::frame::{read, toggled};
use owsopel_tests::reference::receiver::{Mode, Receiver, Results};
use owsopel_tests::reference::strip::GAP;

use super::receiver::{ended, feed_by, Rules};
use super::{Mistake, SLOW};

/// The results and the clock bit of a receiver in Locked.
fn locked(receiver: &mut Receiver) -> Option<(&mut Results, &mut u32)> {
    match &mut receiver.mode {
        Mode::Locked { results, clock, .. } => Some((results, clock)),
        _ => None,
    }
}

/// The same, and the frame's clock bit, if the bit ends a frame in Locked.
fn judging(receiver: &mut Receiver, bit: bool) -> Option<(&mut Results, &mut u32, u32)> {
    let clock_now = read(ended(receiver, bit)?).clock;
    let (results, clock) = locked(receiver)?;
    Some((results, clock, clock_now))
}

struct LostAtThree;

impl Rules for LostAtThree {
    fn read_bit(receiver: &mut Receiver, bit: bool) -> Option<u16> {
        let item = receiver.read_bit(bit);
        let (results, _) = locked(receiver)?;
        let faulty = results.iter().filter(|is_faulty| **is_faulty).count();
        if item == Some(GAP) && faulty == 3 {
            receiver.losses = receiver.losses.saturating_add(1);
            receiver.sync();
        }
        item
    }
}

struct KeptAtFour;

impl Rules for KeptAtFour {
    fn read_bit(receiver: &mut Receiver, bit: bool) -> Option<u16> {
        let Some((results, ..)) = judging(receiver, bit) else {
            return receiver.read_bit(bit);
        };
        // With no earlier fault, lock is not lost.
        let earlier = std::mem::take(results);
        let item = receiver.read_bit(bit);
        let (results, _) = locked(receiver)?;
        results[1..].copy_from_slice(&earlier[..7]);
        item
    }
}

struct SevenFrames;

impl Rules for SevenFrames {
    fn read_bit(receiver: &mut Receiver, bit: bool) -> Option<u16> {
        if let Some((results, ..)) = judging(receiver, bit) {
            results[6] = false;
        }
        receiver.read_bit(bit)
    }
}

struct NotToggledOnGap;

impl Rules for NotToggledOnGap {
    fn read_bit(receiver: &mut Receiver, bit: bool) -> Option<u16> {
        let item = receiver.read_bit(bit);
        if let (Some((_, clock)), Some(GAP)) = (locked(receiver), item) {
            *clock = toggled(*clock);
        }
        item
    }
}

struct LastClockBit;

impl Rules for LastClockBit {
    fn read_bit(receiver: &mut Receiver, bit: bool) -> Option<u16> {
        let frame = ended(receiver, bit);
        if let Some((_, last, _)) = judging(receiver, bit) {
            *last = toggled(*last);
        }
        let item = receiver.read_bit(bit);
        if let (Some((_, clock)), Some(frame)) = (locked(receiver), frame) {
            *clock = read(frame).clock;
        }
        item
    }
}

struct FaultAtLock;

impl Rules for FaultAtLock {
    fn read_bit(receiver: &mut Receiver, bit: bool) -> Option<u16> {
        let was_locked = locked(receiver).is_some();
        let item = receiver.read_bit(bit);
        if let (Some((results, _)), false) = (locked(receiver), was_locked) {
            results[0] = true;
        }
        item
    }
}

/// Takes a record with four faulty frames, the earliest of them as sound.
struct FourFaultyTaken;

impl Rules for FourFaultyTaken {
    fn record(mut record: records::Receiver) -> records::Receiver {
        if record.results < 256 && record.results.count_ones() == 4 {
            record.results ^= 1 << record.results.ilog2();
        }
        record
    }
}

pub fn results_mistakes() -> Vec<Mistake> {
    let feeds: [(&str, Feed, &str); 7] = [
        ("lost at three", feed_by::<LostAtThree>, "losses: 1"),
        ("kept at four", feed_by::<KeptAtFour>, "losses: 1"),
        ("seven results", feed_by::<SevenFrames>, "results: 128"),
        (
            "not toggled on a gap",
            feed_by::<NotToggledOnGap>,
            "gaps: 1",
        ),
        (
            "last frame's clock bit",
            feed_by::<LastClockBit>,
            "clock: 1",
        ),
        ("a fault at lock", feed_by::<FaultAtLock>, "results: 1"),
        (
            "four faulty taken",
            feed_by::<FourFaultyTaken>,
            "refusal: 3",
        ),
    ];
    let mistake = |(name, ows_feed, told)| Mistake {
        calls: Calls {
            name,
            ows_feed,
            ..SLOW
        },
        calls_needed: 2,
        told,
    };
    feeds.map(mistake).into()
}
