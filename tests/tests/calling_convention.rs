//! How numbers, records and buffers pass between Rust and the archive: each
//! field of a record by itself, answers in registers and in memory, and numbers
//! at the ends of their types. `strip_convention` has the calls on strips.

use std::mem::{size_of, transmute};

use owsopel_tests::answers::{Built, Content, Converted, Reading, Sampled, Stepped, Written};
use owsopel_tests::archive::{Feed, ARCHIVE};
use owsopel_tests::records::{locked, Fed, Receiver, ReceiverSynced, Sender, Sent, Started};
use owsopel_tests::records::{OUT_OF_SPACE, REFUSED};
use owsopel_tests::reference::calls as slow;
use owsopel_tests::reference::frame::lane_seed;

/// Both feeding calls.
const FEEDS: [Feed; 2] = [ARCHIVE.ows_feed, ARCHIVE.ows_feed_frames];

/// A sender's record that is refused, its fields all different, with ones and
/// zeros in each byte.
const SENDER: Sender = Sender {
    seed: 0x8123_4567,
    state: 0x89AB_CDEF,
    clock: 0xFEDC_BA98,
    r: -0x7654_3210,
    position: 0xF0E1_D2C3,
    alignment: 0xB4A5_9687,
};

/// A receiver's record of the same kind.
const RECEIVER: Receiver = Receiver {
    mode: 0x8011_2233,
    bits: 0x9122_3344,
    count: 0xA233_4455,
    frame: 0xB344_5566,
    word: 0xC455_6677,
    read: 0xD566_7788,
    results: 0xE677_8899,
    state: 0xF788_99AA,
    clock: 0x8899_AABB,
    samples: 0x8091_A2B3_C4D5_E6F7,
    gaps: 0x9182_7364_5546_3728,
    losses: 0xFFEE_DDCC_BBAA_9988,
    sum: -0x6E5D_4C3B,
    lowest: 0x7F6E_5D4C,
    highest: -0x5D4C_3B2A,
};

#[test]
fn sizes_are_those_of_the_header() {
    let sizes = [
        (size_of::<Stepped>(), 8),
        (size_of::<Built>(), 8),
        (size_of::<Content>(), 16),
        (size_of::<Sampled>(), 4),
        (size_of::<Sender>(), 24),
        (size_of::<Started>(), 28),
        (size_of::<Sent>(), 48),
        (size_of::<Receiver>(), 80),
        (size_of::<ReceiverSynced>(), 88),
        (size_of::<Fed>(), 104),
        (size_of::<Written>(), 16),
        (size_of::<Reading>(), 16),
        (size_of::<Converted>(), 24),
    ];
    for (size, expected) in sizes {
        assert_eq!(size, expected);
    }
}

// ---- Records ----

/// Refused, and so given back field by field.
#[test]
fn refused_records_come_back() {
    let (mut lent, samples, mut buf) = (SENDER, [1_u16, 2], [7_u8; 4]);
    // SAFETY: a reference holds for the record.
    assert_eq!(unsafe { (ARCHIVE.ows_sync)(&mut lent) }, 3);
    assert_eq!(lent, SENDER);
    // SAFETY: the pointers hold for the lengths.
    let sent = unsafe { (ARCHIVE.ows_send)(SENDER, samples.as_ptr(), 2, buf.as_mut_ptr(), 4) };
    let expected = Sent {
        refusal: 3,
        stop: REFUSED,
        sender: SENDER,
        taken: 0,
        written: 0,
    };
    assert_eq!((sent, buf), (expected, [7; 4]));

    let refusal = 3;
    let receiver = RECEIVER;
    let synced = (ARCHIVE.ows_receiver_sync)(RECEIVER);
    assert_eq!(synced, ReceiverSynced { refusal, receiver });
    let (bytes, mut slots) = ([1_u8, 2, 3], [9_u16; 3]);
    let expected = Fed {
        refusal,
        receiver,
        bytes: 0,
        slots: 0,
    };
    for feed in FEEDS {
        // SAFETY: the pointers hold for the lengths.
        let fed = unsafe { feed(RECEIVER, bytes.as_ptr(), 3, slots.as_mut_ptr(), 3) };
        assert_eq!((fed, slots), (expected, [9; 3]));
    }
}

/// The answer of starting a sender, and its two numbers in their order: a seed
/// that is a permitted number of alignment frames, and the other way round.
#[test]
fn a_sender_started_in_memory() {
    let fresh = |seed, alignment| Started {
        refusal: 0,
        sender: Sender {
            seed,
            state: seed,
            alignment,
            ..Sender::default()
        },
    };
    assert_eq!((ARCHIVE.ows_start)(0x1FFFF), fresh(0x1FFFF, 32));
    for (seed, alignment) in [(0x1FFFF, 14), (12, 26), (26, 12)] {
        let started = (ARCHIVE.ows_start_with)(seed, alignment);
        assert_eq!(started, fresh(seed, alignment));
    }
    for (seed, alignment, refusal) in [(u32::MAX, 12, 1), (0x1C0FF, 12, 2), (12, u32::MAX, 19)] {
        let sender = Sender::default();
        let started = (ARCHIVE.ows_start_with)(seed, alignment);
        assert_eq!(started, Started { refusal, sender });
    }
}

/// A sender's record that is taken.
const SENDING: Sender = Sender {
    seed: 0x10002,
    state: 0x1F0F3,
    clock: 1,
    r: -16,
    position: 57,
    alignment: 26,
};

/// Taken, each field of the answer another number.
#[test]
fn an_answer_of_sending_in_memory() {
    let (samples, mut buf) = ([0x1555_u16, 0x2AAA, 0x3FFF], [0_u8; 7]);
    // SAFETY: the pointers hold for the lengths.
    let sent = unsafe { (ARCHIVE.ows_send)(SENDING, samples.as_ptr(), 3, buf.as_mut_ptr(), 7) };
    let mut expected_buf = [0; 7];
    let expected = slow::send(SENDING, &samples, &mut expected_buf);
    assert_eq!((sent, buf), (expected, expected_buf));
    assert_eq!((sent.stop, sent.taken, sent.written), (OUT_OF_SPACE, 2, 6));
    assert_eq!((sent.sender.position, sent.sender.alignment), (58, 26));
}

/// The same, by both feeding calls.
#[test]
fn answers_of_feeding_in_memory() {
    let mut line = [0_u8; 6];
    slow::send(SENDING, &[0x1555, 0x2AAA, 0x3FFF], &mut line);
    let record = Receiver {
        bits: 0x1A,
        count: 5,
        samples: u64::MAX,
        gaps: 0x1_0000_0000,
        losses: 0x8000_0000_0000_0001,
        sum: i32::MIN + 1,
        lowest: 0x1234_5678,
        highest: -0x2345_6789,
        ..locked(0x31, 0x1F0F3, 0)
    };
    let mut expected_slots = [0xBEEF; 4];
    let expected = slow::feed(record, &line, &mut expected_slots);
    for feed in FEEDS {
        let mut slots = [0xBEEF; 4];
        // SAFETY: the pointers hold for the lengths.
        let fed = unsafe { feed(record, line.as_ptr(), 6, slots.as_mut_ptr(), 4) };
        assert_eq!((fed, slots), (expected, expected_slots));
        assert_eq!((fed.bytes, fed.slots), (6, 3));
    }

    let synced = (ARCHIVE.ows_receiver_sync)(record).receiver;
    let totals = [synced.samples, synced.gaps, synced.losses];
    assert_eq!(totals, [record.samples, record.gaps, record.losses]);
    assert_eq!(synced.sums(), record.sums());
    assert_eq!((ARCHIVE.ows_fresh)(), Receiver::default());
}

/// The bytes of a locked line at every address modulo 16.
#[test]
fn bytes_at_every_address() {
    let (record, samples) = (locked(0, SENDING.state, SENDING.clock), [0x1234; 9]);
    let sender = Sender {
        position: 58,
        ..SENDING
    };
    let mut line = [0_u8; 18];
    slow::send(sender, &samples, &mut line);
    for (start, feed) in (0..16).flat_map(|start| FEEDS.map(|feed| (start, feed))) {
        let (mut all, mut slots) = ([0xA5_u8; 34], [0_u16; 9]);
        all[start..start + 18].copy_from_slice(&line);
        // SAFETY: the pointers hold for the lengths.
        let fed = unsafe { feed(record, all.as_ptr().add(start), 18, slots.as_mut_ptr(), 9) };
        let expected = slow::feed(record, &line, &mut [0; 9]);
        assert_eq!((fed, slots), (expected, samples));
    }
}

// ---- Answers in registers, numbers at the ends of their types ----

/// Frames at which clock bit, disparity bit and data change.
const FRAMES: [u16; 8] = [0, 0x3FFF, 0x4000, 0x7FFF, 0x8000, 0xBFFF, 0xC000, 0xFFFF];

#[test]
fn answers_in_one_register() {
    for state in [1, 0x10000, 0x15555, 0x1FFFF, 0, 0x20000, u32::MAX] {
        assert_eq!((ARCHIVE.ows_next)(state), slow::next(state));
    }
    for frame in FRAMES {
        for state in [1, 0x15555, 0x1FFFF, 0, 0x20000, u32::MAX] {
            let sampled = (ARCHIVE.ows_read_sample)(frame, state);
            assert_eq!(sampled, slow::read_sample(frame, state));
        }
    }
    assert_eq!((ARCHIVE.ows_disparity)(0), -16);
    assert_eq!((ARCHIVE.ows_disparity)(u16::MAX), 16);
    assert_eq!((ARCHIVE.ows_check_seed)(u32::MAX), 1);
    assert_eq!((ARCHIVE.ows_lane_seed)(u8::MAX), lane_seed(u8::MAX));
}

/// R with its sign, and each other number with all of its bits.
#[test]
fn numbers_at_the_ends_of_their_types() {
    for r in [i32::MIN, i32::MIN + 1, -17, -16, -1, 0, 16, 17, i32::MAX] {
        let is_taken = (-16..=16).contains(&r);
        for (sample, clock) in [(0, 0), (0x3FFF, 1)] {
            let built = (ARCHIVE.ows_build)(sample, 0x1FFFF, clock, r);
            assert_eq!(built, slow::build(sample, 0x1FFFF, clock, r));
            assert_eq!(built.refusal, if is_taken { 0 } else { 5 });
        }
        let mut sender = Sender {
            r,
            ..slow::start(1).sender
        };
        let before = sender;
        // SAFETY: a reference holds for the record.
        let answer = unsafe { (ARCHIVE.ows_sync)(&mut sender) };
        assert_eq!(answer, if is_taken { 0 } else { 3 });
        assert_eq!(sender, before);
    }
    // In their order: sample, state, clock bit, R.
    for (sample, state, clock, r) in [
        (u16::MAX, 1, 0, 0),
        (0, u32::MAX, 0, 0),
        (0, 1, u32::MAX, 0),
        (u16::MAX, u32::MAX, u32::MAX, i32::MIN),
    ] {
        let built = (ARCHIVE.ows_build)(sample, state, clock, r);
        assert_eq!(built, slow::build(sample, state, clock, r));
    }
}

/// The convention leaves open what a register has above a number, and the
/// archive looks at the number alone.
#[test]
fn bits_above_a_number() {
    type Wide<A> = extern "C" fn(u64) -> A;
    type Narrow<N, A> = extern "C" fn(N) -> A;
    type WidePair = extern "C" fn(u64, u64) -> Started;
    type NarrowPair = extern "C" fn(u32, u32) -> Started;
    // SAFETY: a number of any width is passed in the same register.
    let (disparity, read, lane_seed, next, start_with) = unsafe {
        (
            transmute::<Narrow<u16, i32>, Wide<i32>>(ARCHIVE.ows_disparity),
            transmute::<Narrow<u16, Content>, Wide<Content>>(ARCHIVE.ows_read),
            transmute::<Narrow<u8, u32>, Wide<u32>>(ARCHIVE.ows_lane_seed),
            transmute::<Narrow<u32, Stepped>, Wide<Stepped>>(ARCHIVE.ows_next),
            transmute::<NarrowPair, WidePair>(ARCHIVE.ows_start_with),
        )
    };
    for above in [0, 0x5A5A_5A5A_5A5A_5A5A, u64::MAX] {
        assert_eq!(disparity(above << 16 | 0x0FFF), 8);
        assert_eq!(read(above << 16 | 0x0FFF), slow::read(0x0FFF));
        assert_eq!(lane_seed(above << 8), 1);
        assert_eq!(next(above << 32 | 1), slow::next(1));
        let started = start_with(above << 32 | 1, above << 32 | 12);
        assert_eq!(started, slow::start_with(1, 12));
    }
}

#[test]
fn answers_in_two_registers() {
    for frame in FRAMES {
        assert_eq!((ARCHIVE.ows_read)(frame), slow::read(frame));
    }
}
