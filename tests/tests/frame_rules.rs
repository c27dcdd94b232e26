//! Rules of documents 01 and 02 on the scrambler and the frame, over many values.

use owsopel_tests::cycle::{cycle, PERIOD};
use owsopel_tests::inversion::{built_by_xor, read_by_xor};
use owsopel_tests::reference::frame::{
    bits, build, check_seed, disparity, invert, is_state, line_bits, line_bytes, next, number,
    read, read_sample, seed_after, word,
};

/// A state whose word is 0, so that data and sample are equal.
const PLAIN: u32 = 0x04000;

/// Values outside their ranges.
const BAD_STATES: [u32; 5] = [0, 0x20000, 0x20001, 0x24000, u32::MAX];
const BAD_CLOCKS: [u32; 3] = [2, 3, u32::MAX];
const BAD_RS: [i32; 6] = [-17, 17, -18, 18, i32::MIN, i32::MAX];
const BAD_SAMPLES: [u16; 4] = [16384, 16385, 0x8000, u16::MAX];

/// Samples at the ends and around single bits, and every 257th.
fn some_samples() -> Vec<u16> {
    let mut samples: Vec<u16> = (0..16384).step_by(257).collect();
    for k in 0..14 {
        samples.push(1 << k);
        samples.push(0x3FFF - (1 << k));
    }
    samples.push(0x3FFF);
    samples
}

/// States at the ends and around single bits, and every 1021st.
fn some_states() -> Vec<u32> {
    let mut states: Vec<u32> = (1..=0x1FFFF).step_by(1021).collect();
    for k in 0..17 {
        states.push(1 << k);
        states.push(0x1FFFF - (1 << k));
    }
    states.push(0x1FFFF);
    states
}

/// What is read of a frame, but for its balance.
fn clock_and_data(frame: u16) -> (u32, u16) {
    let content = read(frame);
    (content.clock, content.scrambled)
}

#[test]
fn numbers_and_lists_of_bits_agree() {
    for n in 0..=0x1FFFF {
        assert_eq!(number(&bits::<17>(n)), n);
    }
    assert_eq!(bits::<3>(6), [false, true, true]);
    assert_eq!(number(&bits::<32>(u32::MAX)), u32::MAX);
}

/// Document 02, Q-14: "the state returns for the first time after exactly
/// 131,071 steps". As many states are different, so each state is among them,
/// and from each of them the walk is as long.
#[test]
fn scrambler_runs_through_every_state_once() {
    let mut states = cycle(|state| next(state).unwrap());
    assert_eq!(states.len(), PERIOD);
    states.sort_unstable();
    assert!(states.into_iter().eq(1..=0x1FFFF));
}

#[test]
fn eight_states_are_no_seed() {
    let refused: Vec<u32> = (1..=0x1FFFF).filter(|s| check_seed(*s).is_err()).collect();
    let expected: Vec<u32> = (0..8).map(|high| 16384 * high + 0x00FF).collect();
    assert_eq!(refused, expected);
    for seed in refused {
        assert_eq!(check_seed(seed), Err(2));
    }
}

#[test]
fn a_seed_is_looked_for_past_the_states_that_are_none() {
    let mut state = 1;
    let mut passed = 0;
    for steps in 0..131071 {
        let after = next(state).unwrap();
        if check_seed(state).is_err() {
            assert_eq!(check_seed(after), Ok(()));
            assert_eq!(seed_after(steps), after);
            assert_eq!(seed_after(steps + 1), after);
            passed += 1;
        } else if steps % 1000 == 0 {
            assert_eq!(seed_after(steps), state);
        }
        state = after;
    }
    assert_eq!(passed, 8);
}

#[test]
fn frames_read_back_for_samples_and_states() {
    for sample in some_samples() {
        for state in some_states() {
            for clock in [0, 1] {
                for r in -16..=16 {
                    let (frame, _) = build(sample, state, clock, r).unwrap();
                    assert_eq!(clock_and_data(frame), (clock, sample ^ word(state)));
                    assert_eq!(read_sample(frame, state), Ok(sample));
                }
            }
        }
    }
}

#[test]
fn frames_read_back_for_every_state() {
    for state in 1..=0x1FFFF {
        for sample in [0, 0x1555, 0x2AAA, 0x3FFF] {
            let (frame, _) = build(sample, state, state % 2, 0).unwrap();
            assert_eq!(clock_and_data(frame), (state % 2, sample ^ word(state)));
            assert_eq!(read_sample(frame, state), Ok(sample));
        }
    }
}

/// One frame from R: it is inverted only where R would leave −16 to 16, R
/// counts the bits sent, and the count stays within 24 after each bit.
fn check_balance(data: u16, clock: u32, r: i32) {
    let (frame, r_after) = build(data, PLAIN, clock, r).unwrap();
    let built = data + if clock == 1 { 0x4000 } else { 0 };
    let sum = r + disparity(built);
    let sent = if (-16..=16).contains(&sum) {
        built
    } else {
        !built
    };
    assert_eq!(frame, sent, "data {data:#x} clock {clock} R {r}");
    assert_eq!(r_after, r + disparity(frame));
    assert!((-16..=16).contains(&r_after));

    let mut count = r;
    for bit in line_bits(frame) {
        count += if bit { 1 } else { -1 };
        assert!((-24..=24).contains(&count));
    }
    assert_eq!(count, r_after);
}

#[test]
fn balance_for_every_data_clock_bit_and_r() {
    for data in 0..16384 {
        for clock in [0, 1] {
            for r in -16..=16 {
                check_balance(data, clock, r);
                let (frame, _) = build(data, PLAIN, clock, r).unwrap();
                assert_eq!(clock_and_data(frame), (clock, data));
            }
        }
    }
}

#[test]
fn running_disparity_is_the_sum_over_all_frames() {
    let (mut state, mut clock, mut r, mut sum) = (1, 0, 0, 0);
    for i in 0..131071_u32 {
        let sample = (i * 7919 % 16384) as u16;
        let (frame, r_after) = build(sample, state, clock, r).unwrap();
        sum += disparity(frame);
        assert_eq!(r_after, sum);
        assert_eq!(read_sample(frame, state), Ok(sample));
        state = next(state).unwrap();
        clock = 1 - clock;
        r = r_after;
    }
}

#[test]
fn a_frame_and_its_inversion_read_the_same() {
    for frame in 0..=u16::MAX {
        assert_eq!(invert(frame), !frame);
        assert_eq!(invert(invert(frame)), frame);
        assert_eq!(disparity(invert(frame)), -disparity(frame));
        assert_eq!(clock_and_data(invert(frame)), clock_and_data(frame));
        for state in [1, PLAIN, 0x15555] {
            let sample = read_sample(frame, state);
            assert_eq!(read_sample(invert(frame), state), sample);
        }
    }
}

/// Document 02, Q-4, of the rules as document 01 has them.
#[test]
fn inversion_is_an_xor_with_65535_times_the_disparity_bit() {
    built_by_xor(|sample, state, clock, r| build(sample, state, clock, r).unwrap());
    read_by_xor(read);
}

#[test]
fn every_frame_reads_within_its_ranges() {
    for frame in 0..=u16::MAX {
        let (clock, data) = clock_and_data(frame);
        assert!(clock <= 1 && data <= 16383);
        assert_eq!(disparity(frame), 2 * frame.count_ones() as i32 - 16);
        let upright = if frame >= 0x8000 { !frame } else { frame };
        assert_eq!(u32::from(upright), 16384 * clock + u32::from(data));
    }
}

#[test]
fn bytes_on_the_line_are_low_byte_first() {
    for frame in 0..=u16::MAX {
        let bytes = line_bytes(frame);
        assert_eq!(bytes, frame.to_le_bytes());
        let mut line = bits::<8>(u32::from(bytes[0])).to_vec();
        line.extend(bits::<8>(u32::from(bytes[1])));
        assert_eq!(line, line_bits(frame));
    }
}

#[test]
fn seed_refusals_in_order() {
    // The last three are above 0x1FFFF and have the word 0x00FF as well.
    for seed in [0, 0x20000, u32::MAX, 0x200FF, 0x240FF, 0x8000_00FF] {
        assert_eq!(check_seed(seed), Err(1));
    }
    for seed in [1, 0x1FFFF, 0x00FE, 0x0100] {
        assert_eq!(check_seed(seed), Ok(()));
    }
}

#[test]
fn a_bad_state_is_refused() {
    for state in BAD_STATES {
        assert!(!is_state(state));
        assert_eq!(next(state), Err(3));
        for frame in [0, 0x00FF, 0xFF00, 0xFFFF] {
            assert_eq!(read_sample(frame, state), Err(3));
        }
    }
    assert!(is_state(1) && is_state(0x1FFFF));
}

#[test]
fn a_bad_state_or_clock_bit_comes_before_all_else() {
    for r in [-16, 0, 16].into_iter().chain(BAD_RS) {
        for sample in [0, 16383].into_iter().chain(BAD_SAMPLES) {
            for state in BAD_STATES {
                for clock in [0, 1].into_iter().chain(BAD_CLOCKS) {
                    assert_eq!(build(sample, state, clock, r), Err(3));
                }
            }
            for clock in BAD_CLOCKS {
                assert_eq!(build(sample, 1, clock, r), Err(3));
            }
        }
    }
}

#[test]
fn a_bad_r_comes_before_a_bad_sample() {
    for state in [1, PLAIN, 0x1FFFF] {
        for clock in [0, 1] {
            for r in BAD_RS {
                for sample in [0, 16383].into_iter().chain(BAD_SAMPLES) {
                    assert_eq!(build(sample, state, clock, r), Err(5));
                }
            }
            for sample in BAD_SAMPLES {
                for r in -16..=16 {
                    assert_eq!(build(sample, state, clock, r), Err(4));
                }
            }
        }
    }
}
