//! Rules of document 01, and of Q-7 in document 02, on the sender, tried on the
//! slow version by itself.

use owsopel_tests::lane_records::{wrong_alignments, ALIGNMENTS};
use owsopel_tests::records::Sender;
use owsopel_tests::reference::frame::{build, next};
use owsopel_tests::reference::sender::{send, start, start_with, sync, Sending, Stop};

/// What fills a buffer byte before a call.
const OLD_BYTE: u8 = 0xE7;

/// Sends to that many bytes; beside the answer, the buffer after the call.
fn send_to(sender: &mut Sender, samples: &[u16], room: usize) -> (Result<Sending, u8>, Vec<u8>) {
    let mut buf = vec![OLD_BYTE; room];
    let answer = send(sender, samples, &mut buf);
    (answer, buf)
}

/// The frames of bytes, "the low byte is first".
fn frames(bytes: &[u8]) -> Vec<u16> {
    let frame = |pair: &[u8]| u16::from(pair[0]) + 256 * u16::from(pair[1]);
    bytes.chunks(2).map(frame).collect()
}

/// A sender of seed 1 past its sequence.
fn past_sequence(alignment: u32) -> Sender {
    let mut sender = start_with(1, alignment).unwrap();
    let room = 2 * (alignment as usize + 32);
    let sending = send_to(&mut sender, &[], room).0.unwrap();
    assert_eq!((sending.stop, sending.written), (Stop::AllSent, room));
    assert_eq!(sender.position, alignment + 32);
    sender
}

#[test]
fn a_sender_starts_fresh_or_is_refused() {
    for seed in [1, 0x000FE, 0x04000, 0x1FFFF] {
        for alignment in ALIGNMENTS {
            let fresh = Sender {
                seed,
                state: seed,
                alignment,
                ..Sender::default()
            };
            assert_eq!(start_with(seed, alignment), Ok(fresh));
        }
        assert_eq!(start(seed), start_with(seed, 32));
    }
    for seed in [0, 0x20000, 0x200FF, u32::MAX] {
        assert_eq!(start(seed), Err(1));
    }
    for seed in [0x000FF, 0x1C0FF] {
        assert_eq!(start(seed), Err(2));
    }
}

/// "19 an odd number or one outside 12 to 32, checked after the seed".
#[test]
fn a_number_not_permitted_is_refused_after_the_seed() {
    for alignment in [0, 1, 2, 10, 11, 13, 21, 31, 33, 34, 64, 268, u32::MAX] {
        assert_eq!(start_with(1, alignment), Err(19));
    }
    for alignment in wrong_alignments() {
        for (seed, refusal) in [(1, 19), (0x1FFFF, 19), (0x000FF, 2), (0x200FF, 1), (0, 1)] {
            assert_eq!(start_with(seed, alignment), Err(refusal));
        }
    }
}

/// Document 01's frames of seed 1 stand at positions 32 to 36, or as many
/// earlier as there are fewer alignment frames.
#[test]
fn the_sequence_is_alignment_and_then_sample_0() {
    for alignment in ALIGNMENTS {
        let mut sender = start_with(1, alignment).unwrap();
        for position in 0..alignment {
            let (answer, buf) = send_to(&mut sender, &[], 2);
            assert_eq!(answer.unwrap().stop, Stop::OutOfSpace);
            let frame = if position % 2 == 0 { 0xFF00 } else { 0x00FF };
            assert_eq!(frames(&buf), [frame]);
            assert_eq!((sender.state, sender.clock, sender.r), (1, 0, 0));
            assert_eq!(sender.position, position + 1);
        }
        let expected = [0x0001, 0xBFF7, 0x0048, 0xBDF7, 0x1248];
        for (frame, r) in expected.into_iter().zip([-14, -2, -14, -4, -12]) {
            let (_, buf) = send_to(&mut sender, &[7], 2);
            assert_eq!((frames(&buf), sender.r), (vec![frame], r));
        }
        assert_eq!((sender.position, sender.clock), (alignment + 5, 1));
        let (answer, buf) = send_to(&mut sender, &[7], 1000);
        let sending = answer.unwrap();
        assert_eq!((sending.taken, sending.written), (1, 2 * 28));
        assert_eq!(buf[56..], [OLD_BYTE; 944]);
        assert_eq!(sender.alignment, alignment);
    }
}

/// From position 64 on, or as many earlier as there are fewer alignment frames;
/// there the position stays.
#[test]
fn samples_are_sent_after_the_sequence() {
    for alignment in ALIGNMENTS {
        let mut sender = past_sequence(alignment);
        let Sender {
            state, clock, r, ..
        } = sender;
        let (answer, buf) = send_to(&mut sender, &[16383, 5], 4);
        let sending = Sending {
            stop: Stop::AllSent,
            taken: 2,
            written: 4,
        };
        assert_eq!(answer, Ok(sending));
        let (one, r) = build(16383, state, clock, r).unwrap();
        let (two, r) = build(5, next(state).unwrap(), 1 - clock, r).unwrap();
        assert_eq!(frames(&buf), [one, two]);
        assert_eq!((sender.r, sender.position), (r, alignment + 32));
        assert_eq!(sender.alignment, alignment);
    }
}

/// With the alignment frames of document 01 the positions are its own.
#[test]
fn document_01_has_32_alignment_frames() {
    assert_eq!(past_sequence(32).position, 64);
    let mut sender = start(1).unwrap();
    assert_eq!(send_to(&mut sender, &[], 200).0.unwrap().written, 128);
    assert_eq!(sender, past_sequence(32));
}

/// The stop, the samples taken, the bytes written.
fn stop(sender: &Sender, samples: &[u16], room: usize) -> (Stop, usize, usize) {
    let mut sender = *sender;
    let (answer, buf) = send_to(&mut sender, samples, room);
    let sending = answer.unwrap();
    assert!(buf[sending.written..].iter().all(|byte| *byte == OLD_BYTE));
    (sending.stop, sending.taken, sending.written)
}

/// "at position 64 with no sample left, stop as *all sent*; else with under two
/// bytes left, stop as *out of space*".
#[test]
fn all_sent_is_tested_before_out_of_space() {
    for alignment in ALIGNMENTS {
        let late = past_sequence(alignment);
        assert_eq!(stop(&late, &[], 0), (Stop::AllSent, 0, 0));
        assert_eq!(stop(&late, &[], 1), (Stop::AllSent, 0, 0));
        assert_eq!(stop(&late, &[9], 0), (Stop::OutOfSpace, 0, 0));
        assert_eq!(stop(&late, &[9], 1), (Stop::OutOfSpace, 0, 0));
        assert_eq!(stop(&late, &[9], 2), (Stop::AllSent, 1, 2));
        assert_eq!(stop(&late, &[9, 9], 2), (Stop::OutOfSpace, 1, 2));
        assert_eq!(stop(&late, &[9, 9], 3), (Stop::OutOfSpace, 1, 2));
        assert_eq!(stop(&late, &[9, 9], 4), (Stop::AllSent, 2, 4));
        let early = start_with(1, alignment).unwrap();
        for room in [0, 1] {
            assert_eq!(stop(&early, &[], room), (Stop::OutOfSpace, 0, 0));
        }
        for room in [2, 3] {
            assert_eq!(stop(&early, &[9], room), (Stop::OutOfSpace, 0, 2));
        }
        let all = 2 * (alignment as usize + 32);
        assert_eq!(stop(&early, &[], all - 1), (Stop::OutOfSpace, 0, all - 2));
        assert_eq!(stop(&early, &[], all), (Stop::AllSent, 0, all));
        assert_eq!(stop(&early, &[9], all), (Stop::OutOfSpace, 0, all));
        assert_eq!(stop(&early, &[9], all + 3), (Stop::AllSent, 1, all + 2));
    }
}

#[test]
fn sync_keeps_seed_r_and_the_number() {
    for alignment in ALIGNMENTS {
        let mut sender = start_with(0x4000, alignment).unwrap();
        let room = 2 * (alignment as usize + 1);
        send_to(&mut sender, &[], room).0.unwrap();
        assert_eq!((sender.r, sender.clock), (-16, 1));
        assert_eq!(sender.position, alignment + 1);
        assert_eq!(sync(&mut sender), Ok(()));
        let expected = Sender {
            r: -16,
            ..start_with(0x4000, alignment).unwrap()
        };
        assert_eq!(sender, expected);
    }
}

/// SYNC and sending refuse the record with 3, also where a sample is none, and
/// leave it and the buffer.
#[track_caller]
fn demand_refused(record: Sender) {
    for samples in [&[][..], &[5], &[16384]] {
        let mut sender = record;
        let (answer, buf) = send_to(&mut sender, samples, 6);
        assert_eq!((answer, buf), (Err(3), vec![OLD_BYTE; 6]));
        assert_eq!(sync(&mut sender), Err(3));
        assert_eq!(sender, record);
    }
}

/// "a record with a number not permitted is refused with 3", and so is one with
/// a position past its sequence.
#[test]
fn the_number_and_the_position_of_a_record() {
    for alignment in wrong_alignments() {
        for position in [0, 12, 31, 44, 64] {
            demand_refused(Sender {
                position,
                alignment,
                ..start(1).unwrap()
            });
        }
    }
    for alignment in ALIGNMENTS {
        let fresh = start_with(1, alignment).unwrap();
        for position in 0..=alignment + 32 {
            let mut sender = Sender { position, ..fresh };
            assert_eq!(send_to(&mut sender, &[], 6).0.err(), None);
            assert_eq!(sync(&mut Sender { position, ..fresh }), Ok(()));
        }
        for position in [alignment + 33, 65, u32::MAX] {
            demand_refused(Sender { position, ..fresh });
        }
    }
}

#[test]
fn sender_refusals_in_order() {
    let good = past_sequence(32);
    let bad = [
        Sender { seed: 0, ..good },
        Sender { seed: 0xFF, ..good },
        Sender { state: 0, ..good },
        Sender {
            state: 0x20000,
            ..good
        },
        Sender { clock: 2, ..good },
        Sender { r: 17, ..good },
        Sender { r: -17, ..good },
        Sender {
            position: 65,
            ..good
        },
    ];
    for record in bad {
        demand_refused(record);
    }
    // Also where the sample would not be reached.
    for (record, room) in [(good, 6), (good, 0), (start(1).unwrap(), 2)] {
        let mut sender = record;
        let (answer, buf) = send_to(&mut sender, &[0, 16383, 16384], room);
        assert_eq!((answer, buf), (Err(4), vec![OLD_BYTE; room]));
        assert_eq!(sender, record);
    }
}

/// A state may have the word 0x00FF, a seed may not.
#[test]
fn a_state_may_have_the_word_00ff() {
    let mut sender = Sender {
        state: 0x00FF,
        ..past_sequence(32)
    };
    let mut synced = sender;
    assert_eq!(sync(&mut synced), Ok(()));
    let (answer, _) = send_to(&mut sender, &[0], 2);
    assert_eq!(answer.unwrap().taken, 1);
    let mut sender = Sender {
        seed: 0x00FF,
        ..past_sequence(32)
    };
    assert_eq!(sync(&mut sender), Err(3));
}
