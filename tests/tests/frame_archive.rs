//! The archive's calls on single frames against the slow version. Numbers of
//! calls are given with each part; all parts together make over 3.9 million.

use owsopel_tests::archive::{fail, ARCHIVE};
use owsopel_tests::cycle::{cycle, PERIOD};
use owsopel_tests::frame_comparison::FrameComparison;
use owsopel_tests::fuzz::FrameCall;
use owsopel_tests::inversion::{built_by_xor, read_by_xor};
use owsopel_tests::lane_records;
use owsopel_tests::reference::frame::{check_seed, next};

/// The fewest calls of each part.
const STATES_STEPPED: u64 = 150_000;
const SEEDS_CHECKED: u64 = 150_000;
const FRAMES_READ: u64 = 131_072;
const BUILT_FROM_EVERY_R: u64 = 500_000;
const BUILT_OF_EVERY_NUMBER: u64 = 1_000_000;
const BUILT_WITH_EVERY_STATE: u64 = 500_000;
const SAMPLES_READ: u64 = 1_500_000;

const _: () = assert!(
    STATES_STEPPED
        + SEEDS_CHECKED
        + FRAMES_READ
        + BUILT_FROM_EVERY_R
        + BUILT_OF_EVERY_NUMBER
        + BUILT_WITH_EVERY_STATE
        + SAMPLES_READ
        >= 3_900_000
);

/// States at the ends of their range, and of words 0, 0x00FF and 0x3FFF.
const STATES: [u32; 8] = [1, 0x4000, 0xFF, 0x3FFF, 0x1C0FF, 0x15555, 0x0AAAA, 0x1FFFF];

/// Numbers that are no state, clock bit, R or sample; some would be one if bits
/// were cut off or the sign was lost.
const BAD_STATES: [u32; 7] = [
    0,
    0x20000,
    0x20001,
    0x3FFFF,
    0x4_0001,
    0x8000_0001,
    u32::MAX,
];
const BAD_CLOCKS: [u32; 7] = [2, 3, 0x100, 0x101, 0x1_0000, 0x8000_0001, u32::MAX];
const BAD_RS: [i32; 14] = [
    -17,
    17,
    -18,
    20,
    0xF0,
    0xFF,
    0x100,
    -0x100,
    0xFFF0,
    0x1_0000,
    i32::MIN,
    i32::MIN + 16,
    i32::MAX,
    i32::MAX - 15,
];
const BAD_SAMPLES: [u16; 5] = [16384, 16385, 0x7FFF, 0x8000, u16::MAX];

/// Every number up to 0x24000, every single bit with small ones, and any.
fn words(comparison: &mut FrameComparison) -> Vec<u32> {
    let mut words: Vec<u32> = (0..0x24000).collect();
    for k in 17..32 {
        words.extend([0, 1, 0x00FF, 0x40FF, 0x1FFFF].map(|low| (1 << k) + low));
    }
    words.extend((0..5_000).map(|_| comparison.random.word()));
    words
}

#[test]
fn stepping_every_state() {
    let mut comparison = FrameComparison::new(801);
    for state in words(&mut comparison) {
        let refusal = comparison.call(FrameCall::Next { state });
        let is_state = (1..=0x1FFFF).contains(&state);
        assert_eq!(refusal, if is_state { 0 } else { 3 });
    }
    comparison.end("stepping every state", STATES_STEPPED, &[0, 3]);
}

/// The archive walks round the whole cycle, beside the slow version, and is back
/// after "exactly 131,071 steps" (document 02, Q-14).
#[test]
fn stepping_round_the_cycle() {
    let states = cycle(|state| {
        let stepped = (ARCHIVE.ows_next)(state);
        assert_eq!(stepped.refusal, 0, "state {state:#x}");
        stepped.state
    });
    assert_eq!(states.len(), PERIOD);
    assert_eq!(states, cycle(|state| next(state).unwrap()));
}

/// Beside the comparison: the word 0x00FF is met eight times.
#[test]
fn checking_every_seed() {
    let mut comparison = FrameComparison::new(802);
    let mut words_refused = 0;
    for seed in words(&mut comparison) {
        let refusal = comparison.call(FrameCall::CheckSeed { seed });
        words_refused += u32::from(refusal == 2);
    }
    assert_eq!(words_refused, 8);
    // Often enough to count.
    for seed in (0..24).map(|k| 0x00FF + 0x4000 * (k % 8)) {
        assert_eq!(comparison.call(FrameCall::CheckSeed { seed }), 2);
    }
    comparison.end("checking every seed", SEEDS_CHECKED, &[0, 1, 2]);
}

#[test]
fn every_lane_has_its_seed() {
    let mut comparison = FrameComparison::new(803);
    let mut seeds = Vec::new();
    for lane in 0..=u8::MAX {
        comparison.call(FrameCall::LaneSeed { lane });
        seeds.push((ARCHIVE.ows_lane_seed)(lane));
    }
    assert_eq!(seeds[0], 1);
    assert!(seeds.iter().all(|seed| check_seed(*seed).is_ok()));
    seeds.sort_unstable();
    seeds.dedup();
    assert_eq!(seeds.len(), 256);
    comparison.end("every lane's seed", 256, &[0]);
}

#[test]
fn every_frame() {
    let mut comparison = FrameComparison::new(804);
    for frame in 0..=u16::MAX {
        comparison.call(FrameCall::Disparity { frame });
        comparison.call(FrameCall::Read { frame });
    }
    comparison.end("every frame", FRAMES_READ, &[0]);
}

/// Document 02, Q-4, of the archive's frames.
#[test]
fn inversion_is_an_xor_with_65535_times_the_disparity_bit() {
    built_by_xor(|sample, state, clock, r| {
        let built = (ARCHIVE.ows_build)(sample, state, clock, r);
        assert_eq!(built.refusal, 0);
        (built.frame, built.r)
    });
    read_by_xor(|frame| (ARCHIVE.ows_read)(frame));
}

/// R from −20 to 20 and far outside, with clock bits, states and samples in and
/// out of their ranges. Beside the comparison: the order of the refusals, "3",
/// then "5: R outside −16 to 16; then 4: sample above 16383".
#[test]
fn building_from_every_r() {
    let mut comparison = FrameComparison::new(805);
    for r in (-20..=20).chain(BAD_RS) {
        for clock in [0, 1].into_iter().chain(BAD_CLOCKS) {
            let mut states = [&STATES[..], &BAD_STATES].concat();
            states.extend((0..25).map(|_| lane_records::state(&mut comparison.random)));
            for state in states {
                let mut samples = [&[0, 1, 0x3FFE, 0x3FFF][..], &BAD_SAMPLES].concat();
                samples.extend((0..20).map(|_| comparison.random.below(16384) as u16));
                for sample in samples {
                    let refusal = comparison.build(sample, state, clock, r);
                    let expected = match (state, clock, r, sample) {
                        (0 | 0x20000.., ..) | (_, 2.., ..) => 3,
                        (_, _, ..-16 | 17.., _) => 5,
                        (.., 16384..) => 4,
                        _ => 0,
                    };
                    if refusal != expected {
                        fail(&format!("refusal {refusal} in place of {expected}"));
                    }
                }
            }
        }
    }
    let answers = [0, 3, 4, 5];
    comparison.end("building from every R", BUILT_FROM_EVERY_R, &answers);
}

/// Every 16-bit number as a sample, with each of eight states, both clock bits
/// and an R.
#[test]
fn building_of_every_number() {
    let mut comparison = FrameComparison::new(806);
    for state in STATES {
        for clock in 0..=1 {
            for sample in 0..=u16::MAX {
                let r = comparison.random.below(33) as i32 - 16;
                comparison.build(sample, state, clock, r);
            }
        }
    }
    comparison.end("building of every number", BUILT_OF_EVERY_NUMBER, &[0, 4]);
}

/// Every state, with four samples.
#[test]
fn building_with_every_state() {
    let mut comparison = FrameComparison::new(807);
    for state in 1..=0x1FFFF {
        let any = comparison.random.below(16384) as u16;
        for sample in [0, 0x3FFF, any, any ^ 0x2AAA] {
            let r = comparison.random.below(33) as i32 - 16;
            comparison.build(sample, state, state % 2, r);
        }
    }
    comparison.end("building with every state", BUILT_WITH_EVERY_STATE, &[0]);
}

/// Every frame with each of eight states, every state with four frames, any
/// pairs, and what is no state.
#[test]
fn reading_samples() {
    let mut comparison = FrameComparison::new(808);
    for frame in 0..=u16::MAX {
        for state in STATES {
            comparison.call(FrameCall::ReadSample { frame, state });
        }
        for state in BAD_STATES {
            comparison.call(FrameCall::ReadSample { frame, state });
        }
    }
    for state in 1..=0x1FFFF {
        let any = comparison.random.word() as u16;
        for frame in [any, !any, any ^ 0x4000, any ^ 0x8000] {
            comparison.call(FrameCall::ReadSample { frame, state });
        }
    }
    for _ in 0..200_000 {
        let (frame, state) = (comparison.random.word() as u16, comparison.random.word());
        let state = state >> comparison.random.below(32);
        comparison.call(FrameCall::ReadSample { frame, state });
    }
    comparison.end("reading samples", SAMPLES_READ, &[0, 3]);
}
