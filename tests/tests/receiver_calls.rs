//! Rules of document 01, and of Q-3 in document 02, on the receiver's calls and
//! records, tried on the slow version by itself.

use owsopel_tests::records::{first, flash, locked, prove, Receiver};
use owsopel_tests::reference::receiver::{feed, sync, Feeding};

/// What fills a slot before a call.
const OLD_SLOT: u16 = 0xBEEF;

/// "it stops before a byte when no slot is free".
#[test]
fn feeding_stops_before_a_byte() {
    let line = [0x05, 0x00, 0x05, 0x40, 0x05];
    // Bytes lent, slots lent, bytes used, slots used.
    let cases = [
        (5, 0, 0, 0),
        (0, 0, 0, 0),
        (0, 3, 0, 0),
        (1, 1, 1, 0),
        (5, 1, 2, 1),
        (5, 2, 4, 2),
        (4, 2, 4, 2),
        (5, 3, 5, 2),
    ];
    for (length, room, bytes, slots) in cases {
        let mut receiver = locked(0, 1, 0);
        let mut lent = vec![OLD_SLOT; room];
        let answer = feed(&mut receiver, &line[..length], &mut lent);
        assert_eq!(answer, Ok(Feeding { bytes, slots }));
        assert!(lent[slots..].iter().all(|slot| *slot == OLD_SLOT));
        assert_eq!(receiver.count, if bytes % 2 == 1 { 8 } else { 0 });
    }
    // Hunt hands out nothing, and uses no byte without a slot either.
    let mut receiver = Receiver::default();
    let answer = feed(&mut receiver, &line, &mut []);
    assert_eq!(answer, Ok(Feeding { bytes: 0, slots: 0 }));
    assert_eq!(receiver, Receiver::default());
}

#[test]
fn sync_enters_hunt_and_leaves_totals_and_sums() {
    let sums = [-5, 6, i32::MIN];
    let totals = Receiver {
        samples: 7,
        gaps: 8,
        losses: u64::MAX,
        ..Receiver::default().with_sums(sums)
    };
    for record in [flash(0xFF00), first(1, 1), prove(2, 1, 1), locked(2, 1, 1)] {
        let mut receiver = Receiver {
            bits: 5,
            count: 3,
            samples: 7,
            gaps: 8,
            losses: u64::MAX,
            ..record.with_sums(sums)
        };
        assert_eq!(sync(&mut receiver), Ok(()));
        assert_eq!(receiver, totals);
    }
}

/// A record with one part set.
fn with(record: Receiver, part: &str, value: u32) -> Receiver {
    let mut record = record;
    match part {
        "mode" => record.mode = value,
        "bits" => record.bits = value,
        "count" => record.count = value,
        "frame" => record.frame = value,
        "word" => record.word = value,
        "read" => record.read = value,
        "results" => record.results = value,
        "state" => record.state = value,
        "clock" => record.clock = value,
        _ => panic!("no part {part}"),
    }
    record
}

#[test]
fn records_out_of_range_are_refused() {
    let (flash, first) = (flash(0xFF00), first(16383, 1));
    let (prove, locked) = (prove(2, 1, 0), locked(7, 0x1FFFF, 1));
    for record in [Receiver::default(), flash, first, prove, locked] {
        let held = with(with(record, "count", 15), "bits", 0x7FFF);
        for mut record in [record, held] {
            assert_eq!(sync(&mut record), Ok(()));
        }
    }
    let bad = [
        with(Receiver::default(), "mode", 5),
        with(Receiver::default(), "count", 33),
        with(Receiver::default(), "bits", 1),
        with(Receiver::default(), "clock", 1),
        with(Receiver::default(), "state", 1),
        with(flash, "frame", 0),
        with(flash, "frame", 0x1FF00),
        with(flash, "count", 16),
        with(first, "word", 16384),
        with(first, "clock", 2),
        with(first, "state", 1),
        with(prove, "read", 1),
        with(prove, "read", 32),
        with(prove, "state", 0),
        with(locked, "state", 0x20000),
        with(locked, "bits", 1),
    ];
    for record in bad {
        demand_refused(record);
    }
}

/// "one with four or more of them faulty is refused with 3", and so is one with
/// more than eight results, and one with results outside Locked.
#[test]
fn results_out_of_range_are_refused() {
    let locked = locked(0, 1, 1);
    for results in [0, 1, 7, 0x80, 0x92, 0xC1, 0xE0] {
        assert_eq!(sync(&mut with(locked, "results", results)), Ok(()));
    }
    for results in [15, 0xF0, 0x93, 0xAA, 255, 256, 257, 1 << 31, u32::MAX] {
        demand_refused(with(locked, "results", results));
    }
    for record in [
        Receiver::default(),
        flash(0x00FF),
        first(1, 1),
        prove(2, 1, 1),
    ] {
        for results in [1, 7, 0x80] {
            demand_refused(with(record, "results", results));
        }
    }
}

/// Both calls refuse the record and leave it and the slots.
#[track_caller]
fn demand_refused(record: Receiver) {
    let (mut fed, mut synced) = (record, record);
    let mut slots = [OLD_SLOT; 3];
    assert_eq!(feed(&mut fed, &[1, 2, 3], &mut slots), Err(3));
    assert_eq!(sync(&mut synced), Err(3));
    assert_eq!((fed, synced, slots), (record, record, [OLD_SLOT; 3]));
}
