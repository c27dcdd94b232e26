//! Document 01's trial values, in its order, through the calls of the slow
//! version and of the archive.

use owsopel_tests::answers::{Built, Content, Reading, Sampled, Stepped, Written};
use owsopel_tests::archive::{Calls, ARCHIVE};
use owsopel_tests::lane_records::ALIGNMENTS;
use owsopel_tests::records::{flash, prove, Receiver, Sender, Started, FEED_CALLS, OUT_OF_SPACE};
use owsopel_tests::reference::frame::{line_bits, line_bytes};
use owsopel_tests::reference::functions::SLOW;
use owsopel_tests::reference::strip::GAP;

/// The versions tried.
const VERSIONS: [Calls; 2] = [SLOW, ARCHIVE];

/// A permitted state whose word is 0, so that data and sample are equal.
const PLAIN: u32 = 0x04000;

/// States of different words on which the values for given data are tried.
const STATES: [u32; 6] = [PLAIN, 1, 0x48, 0x000FF, 0x15555, 0x1FFFF];

/// What fills a byte or a slot before a call.
const OLD: u8 = 0xA5;
const OLD_SLOT: u16 = 0xBEEF;

/// What building a frame answers where it is taken.
fn built(frame: u16, r: i32) -> Built {
    Built {
        refusal: 0,
        frame,
        r,
    }
}

/// Builds the frame of these scrambled data: by itself with states of different
/// words, and in a sender past its sequence.
#[track_caller]
fn demand_frame(data: u16, clock: u32, r: i32, expected: Built) {
    for calls in VERSIONS {
        for state in STATES {
            // A frame that reads as these data.
            let sample = (calls.ows_read_sample)(data, state).sample;
            let answer = (calls.ows_build)(sample, state, clock, r);
            assert_eq!(answer, expected, "{}, state {state:#x}", calls.name);

            let sender = Sender {
                seed: 1,
                state,
                clock,
                r,
                position: 64,
                alignment: 32,
            };
            let mut buf = [OLD; 3];
            let sent = calls.send(sender, &[sample], &mut buf).unwrap();
            assert_eq!((sent.taken, sent.written), (1, 2), "{}", calls.name);
            assert_eq!(sent.sender.r, expected.r, "{}", calls.name);
            let [low, high] = expected.frame.to_le_bytes();
            assert_eq!(buf, [low, high, OLD], "{}", calls.name);
        }
    }
}

#[test]
fn five_states_follow_each_other() {
    let states = [1, 8, 0x48, 0x208, 0x1248];
    for calls in VERSIONS {
        for pair in states.windows(2) {
            let (refusal, state) = (0, pair[1]);
            assert_eq!((calls.ows_next)(pair[0]), Stepped { refusal, state });
        }
    }
}

/// The second and the fourth are inverted.
const FIVE_FRAMES: [(u16, i32); 5] = [
    (0x0001, -14),
    (0xBFF7, -2),
    (0x0048, -14),
    (0xBDF7, -4),
    (0x1248, -12),
];

#[test]
fn seed_1_gives_the_five_scrambled_frames() {
    for calls in VERSIONS {
        let (mut state, mut clock, mut r) = (1, 0, 0);
        for (frame, r_after) in FIVE_FRAMES {
            let answer = (calls.ows_build)(0, state, clock, r);
            assert_eq!(answer, built(frame, r_after));
            let content = Content {
                clock,
                scrambled: (state & 0x3FFF) as u16,
                disparity: r_after - r,
                inverted: clock,
            };
            assert_eq!((calls.ows_read)(frame), content);
            let (refusal, sample) = (0, 0);
            let read = (calls.ows_read_sample)(frame, state);
            assert_eq!(read, Sampled { refusal, sample });
            (state, clock, r) = ((calls.ows_next)(state).state, 1 - clock, r_after);
        }
    }
}

/// The same frames from a sender just started, behind its alignment frames.
#[track_caller]
fn demand_five_frames(calls: &Calls, started: Started) {
    let alignment = started.sender.alignment;
    let mut buf = vec![OLD; 2 * alignment as usize];
    let mut sender = calls.send(started.sender, &[], &mut buf).unwrap().sender;
    assert_eq!((sender.r, sender.position), (0, alignment));
    for (frame, r) in FIVE_FRAMES {
        let mut buf = [OLD; 3];
        let sent = calls.send(sender, &[], &mut buf).unwrap();
        let [low, high] = frame.to_le_bytes();
        assert_eq!((sent.stop, buf), (OUT_OF_SPACE, [low, high, OLD]));
        assert_eq!(sent.sender.r, r);
        sender = sent.sender;
    }
}

#[test]
fn a_sender_of_seed_1_sends_the_five_frames() {
    for calls in VERSIONS {
        demand_five_frames(&calls, (calls.ows_start)(1));
        for alignment in ALIGNMENTS {
            demand_five_frames(&calls, (calls.ows_start_with)(1, alignment));
        }
    }
}

/// "Prove starts with 2 frames read and the state two steps after s."
#[test]
fn first_two_frames_recover_state_1() {
    let line = [0x01, 0x00, 0xF7, 0xBF];
    for (calls, call) in VERSIONS.iter().flat_map(|v| FEED_CALLS.map(|c| (v, c))) {
        let mut slots = [OLD_SLOT; 4];
        let fed = calls.feed_by(call, flash(0x00FF), &line, &mut slots);
        let fed = fed.unwrap();
        assert_eq!((fed.refusal, fed.bytes, fed.slots), (0, 4, 0));
        assert_eq!(fed.receiver, prove(2, 0x48, 1));
        assert_eq!(slots, [OLD_SLOT; 4]);
    }
}

#[test]
fn all_zero_data_with_clock_bit_0() {
    demand_frame(0, 0, 0, built(0x0000, -16));
    demand_frame(0, 0, -2, built(0xFFFF, 14));
}

#[test]
fn data_3fff_with_clock_bit_1() {
    demand_frame(0x3FFF, 1, 2, built(0x7FFF, 16));
    demand_frame(0x3FFF, 1, 4, built(0x8000, -10));
}

#[test]
fn r_16_with_disparity_2_becomes_14() {
    // Nine ones in bits 13 to 0, and nine with the clock bit counted.
    for (data, clock, frame) in [(0x01FF, 0, 0x01FF), (0x00FF, 1, 0x40FF)] {
        demand_disparity(frame, 2);
        demand_frame(data, clock, 16, built(!frame, 14));
    }
}

#[test]
fn r_minus_16_with_disparity_0_stays() {
    for (data, clock, frame) in [(0x00FF, 0, 0x00FF), (0x3F80, 1, 0x7F80)] {
        demand_disparity(frame, 0);
        demand_frame(data, clock, -16, built(frame, -16));
    }
}

#[test]
fn annex_values() {
    // Four ones in bits 14 to 0: their sum is -7, and the disparity bit 0
    // makes the frame's disparity -8.
    let first = 0x0123;
    demand_disparity(first, -7 - 1);
    demand_frame(first, 0, -5, built(first, -13));

    // Five ones, the clock bit among them: a sum of -5 and a disparity of -6.
    let second = 0x4123;
    demand_disparity(second, -5 - 1);
    demand_frame(0x0123, 1, -13, built(!second, -7));
}

#[track_caller]
fn demand_disparity(frame: u16, expected: i32) {
    for calls in VERSIONS {
        assert_eq!((calls.ows_disparity)(frame), expected);
    }
}

#[test]
fn three_strips_written_and_read() {
    let strips: [(u8, &[u16], &[u8]); 3] = [
        (5, &[1, GAP], &[0x00, 0x02, 0x05, 0x80, 0x02]),
        (0, &[16383], &[0x00, 0x01, 0x00, 0xFF, 0xFE]),
        (7, &[], &[0x00, 0x00, 0x07]),
    ];
    for calls in VERSIONS {
        for (lane, items, bytes) in strips {
            let used = bytes.len();
            let mut buf = [OLD; 8];
            let written = calls.write_strip(lane, items, &mut buf).unwrap();
            let expected = Written {
                refusal: 0,
                bytes: used,
            };
            assert_eq!(written, expected);
            assert_eq!((&buf[..used], &buf[used..]), (bytes, &[OLD; 8][used..]));

            let mut slots = [OLD_SLOT; 3];
            let expected = Reading {
                refusal: 0,
                lane,
                count: items.len() as u16,
                form: 1,
                used,
            };
            assert_eq!(calls.read_strip(bytes, &mut slots), Ok(expected));
            assert_eq!(slots[..items.len()], *items);
            assert!(slots[items.len()..].iter().all(|slot| *slot == OLD_SLOT));
        }
    }
}

#[test]
fn seeds_taken_and_refused() {
    let seeds = [(0x000FE, 0), (0x04000, 0), (0x000FF, 2), (0x1C0FF, 2)];
    for calls in VERSIONS {
        for (seed, refusal) in seeds {
            assert_eq!((calls.ows_check_seed)(seed), refusal);
            let started = (calls.ows_start)(seed);
            assert_eq!(started.refusal, refusal);
            let kept = if refusal == 0 { seed } else { 0 };
            let Sender { seed, state, .. } = started.sender;
            assert_eq!([seed, state], [kept; 2]);
        }
        assert_eq!((calls.ows_lane_seed)(0), 1);
    }
}

#[test]
fn samples_16383_and_16384() {
    for calls in VERSIONS {
        for state in STATES {
            for clock in [0, 1] {
                let answer = (calls.ows_build)(16383, state, clock, 0);
                assert_eq!(answer.refusal, 0);
                let read = (calls.ows_read_sample)(answer.frame, state);
                assert_eq!((read.refusal, read.sample), (0, 16383));
                let refused = (calls.ows_build)(16384, state, clock, 0);
                let (refusal, frame, r) = (4, 0, 0);
                assert_eq!(refused, Built { refusal, frame, r });
            }
        }
        let sender = (calls.ows_start)(1).sender;
        for (sample, refusal, written) in [(16383, 0, 130), (16384, 4, 0)] {
            let mut buf = [OLD; 130];
            let sent = calls.send(sender, &[0, sample], &mut buf).unwrap();
            assert_eq!((sent.refusal, sent.written), (refusal, written));
            assert_eq!(buf == [OLD; 130], refusal != 0);
        }
    }
}

#[test]
fn counts_4096_and_4097() {
    for calls in VERSIONS {
        for (count, written, read) in [(4096, 0, 0), (4097, 6, 10)] {
            // All gaps: one bit each.
            let mut buf = [OLD; 516];
            let answer = calls.write_strip(9, &vec![GAP; count], &mut buf).unwrap();
            let bytes = if written == 0 { 515 } else { 0 };
            assert_eq!((answer.refusal, answer.bytes), (written, bytes));
            assert_eq!(buf == [OLD; 516], written != 0);

            let mut strip = vec![0; 3 + count.div_ceil(8)];
            strip[..2].copy_from_slice(&(count as u16).to_be_bytes());
            let mut slots = vec![OLD_SLOT; count];
            let answer = calls.read_strip(&strip, &mut slots).unwrap();
            assert_eq!(answer.refusal, read);
            let fill = if read == 0 { GAP } else { OLD_SLOT };
            assert!(slots.iter().all(|slot| *slot == fill));
        }
    }
}

/// "Bit 0 goes first on the line. As bytes, the low byte is first, and bit 0 of
/// each byte is earliest."
#[test]
fn bits_and_bytes_on_the_line() {
    for (frame, bytes) in [
        (0xFF00, [0x00, 0xFF]),
        (0x00FF, [0xFF, 0x00]),
        (0xBFF7, [0xF7, 0xBF]),
    ] {
        assert_eq!(line_bytes(frame), bytes);
    }
    for k in 0..16 {
        let line = line_bits(1 << k);
        assert_eq!(line.iter().position(|bit| *bit), Some(k));
        assert_eq!(line.iter().filter(|bit| **bit).count(), 1);
    }
    for calls in VERSIONS {
        let mut buf = [OLD; 4];
        calls
            .send((calls.ows_start)(1).sender, &[], &mut buf)
            .unwrap();
        assert_eq!(buf, [0x00, 0xFF, 0xFF, 0x00]);
        for call in FEED_CALLS {
            let fed = calls.feed_by(call, Receiver::default(), &buf, &mut [0]);
            assert_eq!(fed.unwrap().receiver, flash(0x00FF));
        }
    }
}
