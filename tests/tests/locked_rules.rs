//! Rules of document 01, and of Q-3 in document 02, on a receiver in Locked,
//! tried on the slow version by itself. `sum_rules` has those of the sums.

mod slow_receiver;

use owsopel_tests::records::{locked, Receiver, HUNT, LOCKED};
use owsopel_tests::reference::strip::GAP;
use owsopel_tests::sum_trials::sums_after;
use slow_receiver::{after, hunt, items, line};

/// A faulty frame is a gap. The state steps and the expected clock bit toggles
/// after it as after a sound one.
#[test]
fn locked_hands_out_samples_and_gaps() {
    // 0x0005 has 12 zeros more than ones, 0x4005 has 10.
    for (clock, [sound, faulty], [sum, faulty_sum]) in [
        (0, [0x0005, 0x4005], [-12, -10]),
        (1, [0x4005, 0x0005], [-10, -12]),
    ] {
        for (results, with_sound, with_faulty) in [(0, 0, 1), (3, 6, 7), (0x81, 2, 3)] {
            let expected = Receiver {
                samples: 1,
                ..locked(with_sound, 8, 1 - clock).with_sums([sum, sum, 0])
            };
            let given = after(locked(results, 1, clock), sound);
            assert_eq!(given, (expected, Some(4)));
            let expected = Receiver {
                gaps: 1,
                ..locked(with_faulty, 8, 1 - clock).with_sums([faulty_sum, faulty_sum, 0])
            };
            let given = after(locked(results, 1, clock), faulty);
            assert_eq!(given, (expected, Some(GAP)));
        }
    }
}

/// "One hit, one gap": the frame after it is sound.
#[test]
fn a_flipped_clock_bit_costs_one_item() {
    let samples = [0, 1, 8191, 16383, 5, 5, 0, 16383];
    let (sent, sender) = line(32, &samples);
    for hit in 0..8 {
        let mut touched = sent.clone();
        touched[128 + 2 * hit + 1] ^= 0x40;
        let mut expected = samples;
        expected[hit] = GAP;
        let mut receiver = hunt();
        assert_eq!(items(&mut receiver, &touched), expected);
        let record = Receiver {
            samples: 7,
            gaps: 1,
            ..locked(1 << (7 - hit), sender.state, sender.clock)
        };
        let sums = sums_after([0; 3], &touched[128..]);
        assert_eq!(receiver, record.with_sums(sums));
    }
}

/// Feeds frames to a receiver in Locked, a faulty one for each `x`.
fn after_frames(receiver: Receiver, frames: &str) -> Receiver {
    frames.chars().fold(receiver, |receiver, frame| {
        let is_faulty = u32::from(frame == 'x');
        let clock = (receiver.clock + is_faulty) % 2;
        after(receiver, 0x4000 * clock as u16).0
    })
}

/// "Lock is lost when four of the last eight frames since locking were faulty."
/// A frame of clock bit 0 is 16 zeros here, one of clock bit 1 has a single one.
#[test]
fn lock_is_lost_at_the_fourth_of_eight() {
    for (frames, samples, sum) in [
        ("xxxx", 0, -60),
        ("x.x.x.x", 3, -98),
        ("xxx....x", 4, -120),
        ("xx....xx", 4, -120),
        ("x....xxx", 4, -120),
        ("...xx....xx", 7, -166),
    ] {
        let expected = Receiver {
            samples,
            gaps: 4,
            losses: 1,
            ..hunt().with_sums([sum, sum, 0])
        };
        assert_eq!(after_frames(locked(0, 1, 0), frames), expected);
    }
}

/// A fault is forgotten with the eighth frame after it.
#[test]
fn earlier_faults_are_forgotten() {
    for (frames, results) in [
        ("xxx", 0x07),
        ("xxx.....", 0xE0),
        ("xxx........", 0),
        ("xxx.....x", 0xC1),
        ("xxx.....xxx", 0x07),
        ("xx.....xx", 0x83),
        ("xx.....xx.....xx.....xx", 0x83),
        ("x..x..x..x..x..x..x", 0x49),
    ] {
        let receiver = after_frames(locked(0, 1, 0), frames);
        assert_eq!((receiver.mode, receiver.losses), (LOCKED, 0), "{frames}");
        assert_eq!(receiver.results, results, "{frames}");
    }
}

/// "the last eight frames since locking": none is faulty at the start.
#[test]
fn each_lock_begins_with_no_fault() {
    let (sent, sender) = line(32, &[]);
    let mut receiver = after_frames(locked(7, 1, 1), "x");
    assert_eq!((receiver.mode, receiver.losses), (HUNT, 1));
    items(&mut receiver, &sent);
    let expected = Receiver {
        gaps: 1,
        losses: 1,
        ..locked(0, sender.state, sender.clock)
    };
    assert_eq!(receiver, expected);
}

/// "judging the clock bit before undoing the inversion" is a mistake.
#[test]
fn the_clock_bit_is_judged_after_the_inversion() {
    assert_eq!(after(locked(0, 1, 0), !0x0005).1, Some(4));
    assert_eq!(after(locked(0, 1, 0), !0x4005).1, Some(GAP));
}

#[test]
fn a_pattern_in_locked_means_nothing() {
    let mut receiver = locked(0, 1, 0);
    let given = items(&mut receiver, &[0x00, 0xFF, 0xFF, 0x00, 0x00, 0x00]);
    assert_eq!(given, [0x00FE, GAP, 0x0048]);
    assert_eq!((receiver.mode, receiver.results), (LOCKED, 2));
}

#[test]
fn totals_stay_at_their_largest_value() {
    let most = u64::MAX;
    for (before, counted) in [(most, most), (most - 1, most), (most - 2, most - 1)] {
        let record = Receiver {
            samples: before,
            gaps: before,
            losses: before,
            ..locked(7, 1, 0)
        };
        let (sample, _) = after(record, 0x0005);
        let totals = (sample.samples, sample.gaps, sample.losses);
        assert_eq!(totals, (counted, before, before));
        let (gap, _) = after(record, 0x4005);
        let totals = (gap.samples, gap.gaps, gap.losses);
        assert_eq!(totals, (before, counted, counted));
    }
}
