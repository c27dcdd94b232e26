//! Rules of document 01, with sequences as Q-7 in document 02 has them, on the
//! receiver's modes but for Locked, tried on the slow version by itself.

mod slow_receiver;

use owsopel_tests::lane_records::{sequence_bytes, ALIGNMENTS, PATTERNS};
use owsopel_tests::lines::bits_of;
use owsopel_tests::records::{first, flash, locked, prove};
use owsopel_tests::records::{Receiver, FIRST, FLASH, HUNT, LOCKED, PROVE};
use owsopel_tests::reference::frame::{next, word};
use owsopel_tests::reference::receiver::{fresh, Mode};
use owsopel_tests::reference::receiver_record::to_record;
use owsopel_tests::sum_trials::sums_after;
use slow_receiver::{after, hunt, items, line};

#[test]
fn a_fresh_receiver_is_in_hunt() {
    assert_eq!(hunt(), Receiver::default());
    assert_eq!(hunt().mode, HUNT);
}

/// With every number of alignment frames: "The receiver gets no hint of the
/// number."
#[test]
fn the_sequence_locks_and_samples_come_out() {
    for alignment in ALIGNMENTS {
        let samples = [0, 1, 8191, 16383];
        let (line, sender) = line(alignment, &samples);
        let (aligned, whole) = (2 * alignment as usize, sequence_bytes(alignment));
        let modes = [
            (3, HUNT),
            (4, FLASH),
            (aligned + 1, FLASH),
            (aligned + 2, FIRST),
            (aligned + 4, PROVE),
            (whole - 1, PROVE),
            (whole, LOCKED),
        ];
        for (bytes, mode) in modes {
            let mut receiver = hunt();
            assert_eq!(items(&mut receiver, &line[..bytes]), []);
            assert_eq!(receiver.mode, mode, "after {bytes} bytes");
        }
        let mut receiver = hunt();
        assert_eq!(items(&mut receiver, &line), samples);
        let expected = Receiver {
            samples: 4,
            ..locked(0, sender.state, sender.clock)
        };
        let sums = sums_after([0; 3], &line[whole..]);
        assert_eq!(receiver, expected.with_sums(sums));
    }
}

/// Hunt finds the pattern in either order behind any number of other bits.
#[test]
fn hunt_finds_the_pattern_at_any_bit() {
    for (pattern, frame) in PATTERNS.into_iter().zip([0x00FF, 0xFF00]) {
        for before in 0..70 {
            let mut receiver = fresh();
            for k in 0..before {
                receiver.read_bit(k % 3 == 0);
            }
            for bit in bits_of(&pattern.to_le_bytes()) {
                assert_eq!(receiver.mode, Mode::Hunt);
                assert_eq!(receiver.read_bit(bit), None);
            }
            assert_eq!(to_record(&receiver), flash(frame));
        }
    }
}

/// The pattern needs 32 bits since entry, and bits held count from the lowest.
#[test]
fn hunt_needs_32_bits_since_entry() {
    let mut receiver = hunt();
    items(&mut receiver, &[0xFF, 0xFF, 0x00]);
    let expected = Receiver {
        bits: 0x00_FFFF,
        count: 24,
        ..hunt()
    };
    assert_eq!(receiver, expected);
    items(&mut receiver, &[0x5A, 0x01]);
    let expected = Receiver {
        bits: 0x015A_00FF,
        count: 32,
        ..hunt()
    };
    assert_eq!(receiver, expected);
}

/// The pattern held at the start of a call is no pattern just read.
#[test]
fn a_pattern_held_already_is_shifted_out() {
    for pattern in PATTERNS {
        let record = Receiver {
            bits: pattern,
            count: 32,
            ..hunt()
        };
        let mut receiver = record;
        assert_eq!(items(&mut receiver, &[]), []);
        assert_eq!(receiver, record);
        items(&mut receiver, &[0xA5]);
        let bits = (pattern >> 8) | 0xA500_0000;
        assert_eq!(receiver, Receiver { bits, ..record });
    }
}

#[test]
fn flash_holds_an_inverted_frame_and_reads_others() {
    for (held, inverted) in [(0xFF00, 0x00FF), (0x00FF, 0xFF00)] {
        let (receiver, item) = after(flash(held), inverted);
        assert_eq!((receiver, item), (flash(u32::from(inverted)), None));
        // The held frame again is no inversion; it is read.
        assert_eq!(after(flash(held), held as u16).0, first(0x00FF, 0));
        assert_eq!(after(flash(held), 0xBFF7).0, first(8, 1));
        assert_eq!(after(flash(held), 0x0001).0, first(1, 0));
    }
}

#[test]
fn first_recovers_the_state() {
    assert_eq!(after(first(1, 0), 0xBFF7).0, prove(2, 0x48, 1));
    assert_eq!(after(first(1, 0), 0x4008).0, prove(2, 0x48, 1));
    // The clock bit is the held one.
    assert_eq!(after(first(1, 0), 0x0008).0, hunt());
    assert_eq!(after(first(1, 1), 0x4008).0, hunt());
    // Another word than that of next(1).
    assert_eq!(after(first(1, 0), 0x4018).0, hunt());
    // "accepting recovered state 0" is a mistake.
    assert_eq!(after(first(0, 0), 0x4000).0, hunt());
    // Bits 14 to 16 of the state come from the lowest three of q.
    for high in 0..8 {
        let one = next(5 + 16384 * high).unwrap();
        let (receiver, _) = after(first(5, 0), 0x4000 + word(one));
        assert_eq!(receiver, prove(2, next(one).unwrap(), 1));
    }
}

#[test]
fn prove_reads_up_to_32_frames() {
    for (last, clock) in [(0, 1), (1, 0)] {
        let right = 0x4000 * clock as u16 + 0x0048;
        for read in 2..=31 {
            let expected = match read {
                // Locked expects the other clock bit than that of the last frame.
                31 => locked(0, 0x208, last),
                _ => prove(read + 1, 0x208, clock),
            };
            assert_eq!(after(prove(read, 0x48, last), right), (expected, None));
            // The clock bit is the last one; another word.
            assert_eq!(after(prove(read, 0x48, last), right ^ 0x4000).0, hunt());
            assert_eq!(after(prove(read, 0x48, last), right + 1).0, hunt());
        }
    }
}
