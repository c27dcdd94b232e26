//! The archive's calls on the lane against the slow version: long lines. The
//! frames sent are given with each part; all parts together make over ten
//! million.

use owsopel_tests::archive::Archive;
use owsopel_tests::lane_comparison::LaneComparison;
use owsopel_tests::lines::Damage;
use owsopel_tests::long_lines::{run, Kind, Totals};

/// The fewest frames of each part.
const FRAMES_WITH_SPACED_BURSTS: u64 = 2_000_000;
const FRAMES_WITH_CLOSE_BURSTS: u64 = 2_000_000;
const FRAMES_WITH_FLIPS: u64 = 2_500_000;
const FRAMES_WITH_SLIPS: u64 = 2_500_000;
const FRAMES_IN_SMALL_PIECES: u64 = 1_000_000;

const _: () = assert!(
    FRAMES_WITH_SPACED_BURSTS
        + FRAMES_WITH_CLOSE_BURSTS
        + FRAMES_WITH_FLIPS
        + FRAMES_WITH_SLIPS
        + FRAMES_IN_SMALL_PIECES
        >= 10_000_000
);

/// Runs a part.
#[track_caller]
fn part(name: &str, seed: u64, kind: &Kind, frames: u64) -> Totals {
    let mut comparison = LaneComparison::<Archive>::new(seed);
    let totals = run(&mut comparison, kind, frames);
    let Totals {
        samples,
        gaps,
        losses,
    } = totals;
    println!("{name}: {samples} samples, {gaps} gaps, {losses} losses handed out");
    comparison.end(name, frames, &[0, 4]);
    totals
}

#[test]
fn lines_with_spaced_bursts() {
    let kind = Kind {
        damage: &[
            Damage::None,
            Damage::Bursts { apart: 8 },
            Damage::Bursts { apart: 100 },
        ],
        sync_one_in: 25,
        receiver_sync_one_in: 10_000,
        largest: 400,
    };
    let frames = FRAMES_WITH_SPACED_BURSTS;
    let totals = part("lines with spaced bursts", 101, &kind, frames);
    assert!(totals.samples > frames / 4 && totals.gaps > 10_000);
}

#[test]
fn lines_with_close_bursts() {
    let kind = Kind {
        damage: &[
            Damage::None,
            Damage::CloseBursts { apart: 3 },
            Damage::CloseBursts { apart: 100 },
        ],
        sync_one_in: 6,
        receiver_sync_one_in: 10_000,
        largest: 300,
    };
    let frames = FRAMES_WITH_CLOSE_BURSTS;
    let totals = part("lines with close bursts", 105, &kind, frames);
    assert!(totals.samples > frames / 8 && totals.losses > 1_000);
}

#[test]
fn lines_with_flips() {
    let kind = Kind {
        damage: &[
            Damage::None,
            Damage::Flips { apart: 10 },
            Damage::Flips { apart: 200 },
            Damage::Flips { apart: 5_000 },
        ],
        sync_one_in: 12,
        receiver_sync_one_in: 500,
        largest: 300,
    };
    let totals = part("lines with flips", 102, &kind, FRAMES_WITH_FLIPS);
    assert!(totals.samples > FRAMES_WITH_FLIPS / 8 && totals.losses > 1_000);
}

#[test]
fn lines_with_lost_and_added_bits() {
    let kind = Kind {
        damage: &[
            Damage::None,
            Damage::Lost { apart: 8_000 },
            Damage::Added { apart: 8_000 },
            Damage::Noise { apart: 8_000 },
            Damage::Lost { apart: 200 },
            Damage::Noise { apart: 300 },
        ],
        sync_one_in: 8,
        receiver_sync_one_in: 500,
        largest: 300,
    };
    let totals = part("lines with lost bits", 103, &kind, FRAMES_WITH_SLIPS);
    assert!(totals.samples > FRAMES_WITH_SLIPS / 8 && totals.losses > 1_000);
}

#[test]
fn lines_in_small_pieces() {
    let kind = Kind {
        damage: &[
            Damage::None,
            Damage::Bursts { apart: 10 },
            Damage::Flips { apart: 300 },
            Damage::Lost { apart: 5_000 },
            Damage::Added { apart: 5_000 },
            Damage::Noise { apart: 5_000 },
        ],
        sync_one_in: 60,
        receiver_sync_one_in: 1_000,
        largest: 24,
    };
    let totals = part("lines in small pieces", 104, &kind, FRAMES_IN_SMALL_PIECES);
    assert!(totals.samples > FRAMES_IN_SMALL_PIECES / 8 && totals.losses > 1_000);
}
