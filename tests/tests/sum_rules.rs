//! Rules of Q-5 in document 02 on what one frame reads and on a receiver's sums,
//! by values counted by hand, through the calls of the slow version and of the
//! archive. Sums are written as running, lowest and highest.

use owsopel_tests::archive::{Calls, ARCHIVE};
use owsopel_tests::lane_records::{sequence_bytes, ALIGNMENTS};
use owsopel_tests::records::{first, flash, locked, prove, Receiver, FEED_CALLS, HUNT, LOCKED};
use owsopel_tests::reference::functions::SLOW;

/// The versions tried.
const VERSIONS: [Calls; 2] = [SLOW, ARCHIVE];

/// Sums that no receiver comes to by itself.
const ODD: [i32; 3] = [7, 9, -4];

const MIN: i32 = -2_147_483_648;
const MAX: i32 = 2_147_483_647;

/// Feeds bytes with slots enough, by both feeding calls.
#[track_caller]
fn fed(calls: &Calls, record: Receiver, bytes: &[u8]) -> Receiver {
    let [after, after_frames] = FEED_CALLS.map(|call| {
        let mut slots = vec![0; bytes.len()];
        let fed = calls.feed_by(call, record, bytes, &mut slots).unwrap();
        assert_eq!((fed.refusal, fed.bytes), (0, bytes.len()), "{record:?}");
        fed.receiver
    });
    assert_eq!(after, after_frames, "{record:?}");
    after
}

/// The sums after each of these frames, by each version.
#[track_caller]
fn demand_sums(record: Receiver, frames: &[(u16, [i32; 3])]) {
    for calls in VERSIONS {
        let mut receiver = record;
        for (frame, sums) in frames {
            receiver = fed(&calls, receiver, &frame.to_le_bytes());
            assert_eq!(receiver.sums(), *sums, "{}, {frame:#06x}", calls.name);
        }
    }
}

// ---- One frame ----

/// "its ones minus zeros as received and whether it was inverted".
#[test]
fn a_frame_tells_its_balance_and_its_inversion() {
    for calls in VERSIONS {
        for (frame, disparity, inverted) in [
            (0x0000, -16, 0),
            (0x0001, -14, 0),
            (0x4000, -14, 0),
            (0x00FF, 0, 0),
            (0x3FFF, 12, 0),
            (0x7FFF, 14, 0),
            (0x8000, -14, 1),
            (0xBFF7, 12, 1),
            (0xC000, -12, 1),
            (0xFF00, 0, 1),
            (0xFFFF, 16, 1),
        ] {
            let content = (calls.ows_read)(frame);
            let told = (content.disparity, content.inverted);
            assert_eq!(told, (disparity, inverted), "{}, {frame:#06x}", calls.name);
        }
    }
}

#[test]
fn every_frame_tells_its_balance_and_its_inversion() {
    for calls in VERSIONS {
        for frame in 0..=u16::MAX {
            let content = (calls.ows_read)(frame);
            let disparity = frame.count_ones() as i32 - frame.count_zeros() as i32;
            assert_eq!(content.disparity, disparity, "{frame:#06x}");
            assert_eq!(content.inverted == 1, frame >= 0x8000, "{frame:#06x}");
            assert!(content.inverted <= 1, "{frame:#06x}");
        }
    }
}

// ---- Locked ----

#[test]
fn a_fresh_receiver_has_sums_0() {
    for calls in VERSIONS {
        assert_eq!((calls.ows_fresh)().sums(), [0; 3]);
    }
}

/// Sound frames, every second one inverted: each counts as received.
#[test]
fn locked_sums_its_frames() {
    let frames = [
        (0x0001, [-14, -14, 0]),
        (0xBFF7, [-2, -14, 0]),
        (0x3FFF, [10, -14, 10]),
        (0x8000, [-4, -14, 10]),
        (0x00FF, [-4, -14, 10]),
        (0x8001, [-16, -16, 10]),
    ];
    demand_sums(locked(0, 1, 0), &frames);
}

/// A frame of one clock bit and then of the other, the first faulty: both count.
#[test]
fn faulty_frames_count() {
    let frames = [(0x7FFF, [14, 0, 14]), (0x4000, [0, 0, 14])];
    demand_sums(locked(0, 1, 0), &frames);
    let frames = [(0x0000, [-16, -16, 0]), (0xFFFF, [0, -16, 0])];
    demand_sums(locked(0, 1, 1), &frames);
}

/// "The frame that loses lock still counts in them."
#[test]
fn the_frame_that_loses_lock_counts() {
    for calls in VERSIONS {
        for (frame, sums) in [(0x7FFF, [19, -3, 19]), (0x4000, [-9, -9, 8])] {
            let record = locked(7, 1, 0).with_sums([5, -3, 8]);
            let receiver = fed(&calls, record, &u16::to_le_bytes(frame));
            assert_eq!((receiver.mode, receiver.losses), (HUNT, 1));
            assert_eq!(receiver.sums(), sums);
        }
    }
}

/// The sum is that "at frame ends": half a frame changes nothing.
#[test]
fn whole_frames_count() {
    for calls in VERSIONS {
        let half = fed(&calls, locked(0, 1, 0), &[0xFF]);
        assert_eq!((half.count, half.sums()), (8, [0; 3]));
        let whole = fed(&calls, half, &[0x3F]);
        assert_eq!(whole.sums(), [12, 0, 12]);
    }
}

/// "Each sum is held at the limits of 32 signed bits."
#[test]
fn sums_are_held_at_both_limits() {
    // Of the frames, 0x3FFF adds 12 and 0x0000 takes 16 away.
    for (before, frame, after) in [
        ([MAX - 13, 0, 0], 0x3FFF, [MAX - 1, 0, MAX - 1]),
        ([MAX - 12, 0, 0], 0x3FFF, [MAX, 0, MAX]),
        ([MAX - 11, 0, 0], 0x3FFF, [MAX, 0, MAX]),
        ([MAX, 0, MAX], 0x3FFF, [MAX, 0, MAX]),
        ([MAX, 0, MAX], 0x0000, [MAX - 16, 0, MAX]),
        ([MIN + 17, 0, 0], 0x0000, [MIN + 1, MIN + 1, 0]),
        ([MIN + 16, 0, 0], 0x0000, [MIN, MIN, 0]),
        ([MIN + 15, 0, 0], 0x0000, [MIN, MIN, 0]),
        ([MIN, MIN, 0], 0x0000, [MIN, MIN, 0]),
        ([MIN, MIN, 0], 0x3FFF, [MIN + 12, MIN, 0]),
    ] {
        demand_sums(locked(0, 1, 0).with_sums(before), &[(frame, after)]);
    }
}

/// "a record may hold any three such numbers": the sums go on from there.
#[test]
fn any_three_numbers_go_on() {
    // 0x00FF has as many ones as zeros.
    for (before, frame, after) in [
        ([5, 10, 20], 0x3FFF, [17, 10, 20]),
        ([5, 100, -100], 0x3FFF, [17, 17, 17]),
        ([5, -50, 0], 0x0000, [-11, -50, 0]),
        ([50, -10, 10], 0x00FF, [50, -10, 50]),
        ([-50, -10, 10], 0x00FF, [-50, -50, 10]),
        ([0, MAX, MIN], 0x00FF, [0, 0, 0]),
        ([0, MIN, MAX], 0x0000, [-16, MIN, MAX]),
        ([MIN, MAX, MIN], 0x3FFF, [MIN + 12, MIN + 12, MIN + 12]),
        ([MAX, MAX, MIN], 0x0000, [MAX - 16, MAX - 16, MAX - 16]),
    ] {
        demand_sums(locked(0, 1, 0).with_sums(before), &[(frame, after)]);
    }
}

// ---- At a lock and outside Locked ----

/// "become 0 at each lock": the frame that ends Prove is the last one that does
/// not count.
#[test]
fn sums_become_0_at_each_lock() {
    for before in [ODD, [0; 3], [3, 2, 1], [MIN; 3], [MAX; 3], [MIN, MAX, 0]] {
        let record = prove(31, 0x48, 0).with_sums(before);
        demand_sums(record, &[(0x4048, [0; 3]), (0x3FFF, [12, 0, 12])]);
        let record = prove(30, 0x48, 0).with_sums(before);
        let frames = [(0x4048, before), (0x0208, [0; 3]), (0x8000, [-14, -14, 0])];
        demand_sums(record, &frames);
    }
}

/// The sequence from Hunt to the lock, byte by byte; "rest outside Locked".
#[test]
fn sums_rest_up_to_the_lock() {
    for calls in VERSIONS {
        for alignment in ALIGNMENTS {
            let mut line = vec![0; sequence_bytes(alignment)];
            let sender = (calls.ows_start_with)(1, alignment).sender;
            calls.send(sender, &[], &mut line).unwrap();
            let mut receiver = Receiver::default().with_sums(ODD);
            for byte in line {
                assert_eq!(receiver.sums(), ODD, "{receiver:?}");
                receiver = fed(&calls, receiver, &[byte]);
            }
            assert_eq!((receiver.mode, receiver.sums()), (LOCKED, [0; 3]));
        }
    }
}

/// The records of the modes other than Locked, with those sums.
fn outside_locked() -> [Receiver; 4] {
    let records = [
        Receiver::default(),
        flash(0xFF00),
        first(1, 0),
        prove(31, 1, 0),
    ];
    records.map(|record| record.with_sums(ODD))
}

/// Frames that lead back to Hunt, or keep a mode.
#[test]
fn sums_rest_outside_locked() {
    for record in outside_locked() {
        for frame in [0x0000, 0xFFFF, 0x00FF, 0xFF00, 0x3FFF, 0x8000] {
            demand_sums(record, &[(frame, ODD), (frame, ODD), (frame, ODD)]);
        }
    }
}

/// After the loss they rest until the next lock.
#[test]
fn sums_rest_after_a_loss() {
    let record = locked(7, 1, 0).with_sums([5, -3, 8]);
    let lost = [19, -3, 19];
    demand_sums(record, &[(0x7FFF, lost), (0x0000, lost), (0xFFFF, lost)]);
}

/// The receiver's SYNC enters Hunt, where they rest.
#[test]
fn sync_leaves_the_sums() {
    let in_locked = [locked(0, 1, 0), locked(7, 1, 1)].map(|record| record.with_sums(ODD));
    for calls in VERSIONS {
        for record in outside_locked().into_iter().chain(in_locked) {
            let synced = (calls.ows_receiver_sync)(record);
            let expected = Receiver::default().with_sums(ODD);
            assert_eq!((synced.refusal, synced.receiver), (0, expected));
        }
    }
}

/// A record refused for another part comes back with its sums.
#[test]
fn refused_records_keep_their_sums() {
    for calls in VERSIONS {
        let record = locked(15, 1, 0).with_sums([MIN, MAX, -1]);
        let synced = (calls.ows_receiver_sync)(record);
        assert_eq!((synced.refusal, synced.receiver), (3, record));
        for call in FEED_CALLS {
            let fed = calls.feed_by(call, record, &[0; 4], &mut [0; 4]).unwrap();
            assert_eq!((fed.refusal, fed.receiver), (3, record));
        }
    }
}
