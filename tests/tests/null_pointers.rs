//! No pointer where a length is 0, through the archive.

use std::ptr::{null, null_mut};

use owsopel_tests::archive::ARCHIVE;
use owsopel_tests::records::{locked, Receiver, Sender, ALL_SENT, OUT_OF_SPACE};
use owsopel_tests::reference::calls as slow;

/// Each buffer of sending and feeding by itself, then both.
#[test]
fn null_with_length_0_on_the_lane() {
    let calls = ARCHIVE;
    let sender = Sender {
        position: 64,
        ..slow::start(1).sender
    };
    let receivers = [Receiver::default(), locked(0, 1, 0)];
    let (samples, bytes) = ([1_u16, 2], [3_u8, 4]);
    let (mut buf, mut slots) = ([5_u8; 4], [6_u16; 4]);
    // SAFETY: a pointer holds for its length, or its length is 0.
    unsafe {
        let sent = (calls.ows_send)(sender, null(), 0, buf.as_mut_ptr(), 4);
        assert_eq!((sent.refusal, sent.stop, sent.written), (0, ALL_SENT, 0));
        let sent = (calls.ows_send)(sender, samples.as_ptr(), 2, null_mut(), 0);
        assert_eq!((sent.refusal, sent.stop, sent.taken), (0, OUT_OF_SPACE, 0));
        let sent = (calls.ows_send)(sender, null(), 0, null_mut(), 0);
        assert_eq!(
            (sent.refusal, sent.stop, sent.sender),
            (0, ALL_SENT, sender)
        );

        for (feed, receiver) in [calls.ows_feed, calls.ows_feed_frames]
            .into_iter()
            .flat_map(|feed| receivers.map(|receiver| (feed, receiver)))
        {
            let fed = feed(receiver, null(), 0, slots.as_mut_ptr(), 4);
            assert_eq!((fed.refusal, fed.receiver), (0, receiver));
            let fed = feed(receiver, bytes.as_ptr(), 2, null_mut(), 0);
            assert_eq!((fed.refusal, fed.bytes, fed.receiver), (0, 0, receiver));
            let fed = feed(receiver, null(), 0, null_mut(), 0);
            assert_eq!((fed.refusal, fed.receiver), (0, receiver));
        }
    }
    assert_eq!((buf, slots), ([5; 4], [6; 4]));
}

/// Each buffer of writing a strip by itself, then both; in both forms.
#[test]
fn null_with_length_0_in_writing_strips() {
    let calls = ARCHIVE;
    let (items, mut buf) = ([1_u16, 2], [5_u8; 4]);
    for (write, first) in [
        (calls.ows_write_strip, 0x00),
        (calls.ows_write_short_strip, 0xE0),
    ] {
        // SAFETY: a pointer holds for its length, or its length is 0.
        unsafe {
            let written = write(9, null(), 0, buf.as_mut_ptr(), 4);
            assert_eq!((written.refusal, written.bytes), (0, 3));
            let written = write(9, items.as_ptr(), 2, null_mut(), 0);
            assert_eq!((written.refusal, written.bytes), (8, 0));
            let written = write(9, null(), 0, null_mut(), 0);
            assert_eq!((written.refusal, written.bytes), (8, 0));
        }
        assert_eq!(buf, [first, 0, 9, 5]);
    }
}

/// A strip of one gap and one of no item, in each form.
const STRIPS: [(&[u8], &[u8], u8); 2] = [
    (&[0x00, 1, 9, 0], &[0x00, 0, 8], 1),
    (&[0xE0, 1, 9, 0, 0], &[0xE0, 0, 8], 2),
];

/// Each buffer of reading, checking and converting a strip by itself, then both.
#[test]
fn null_with_length_0_in_reading_strips() {
    let calls = ARCHIVE;
    let (mut buf, mut slots) = ([5_u8; 4], [6_u16; 4]);
    for (full, empty, form) in STRIPS {
        // SAFETY: a pointer holds for its length, or its length is 0.
        unsafe {
            let reading = (calls.ows_read_strip)(full.as_ptr(), full.len(), null_mut(), 0);
            assert_eq!(reading.refusal, 11);
            let reading = (calls.ows_read_strip)(empty.as_ptr(), 3, null_mut(), 0);
            let told = (reading.refusal, reading.lane, reading.form, reading.used);
            assert_eq!(told, (0, 8, form, 3));
            for convert in [calls.ows_shorten_strip, calls.ows_expand_strip] {
                for bytes in [full, empty] {
                    let converted = convert(bytes.as_ptr(), bytes.len(), null_mut(), 0);
                    let told = (converted.refusal, converted.used, converted.bytes);
                    assert_eq!(told, (8, 0, 0));
                }
            }
        }
    }
    // SAFETY: a pointer holds for its length, or its length is 0.
    unsafe {
        let reading = (calls.ows_read_strip)(null(), 0, slots.as_mut_ptr(), 4);
        assert_eq!(reading.refusal, 9);
        let reading = (calls.ows_read_strip)(null(), 0, null_mut(), 0);
        assert_eq!(reading.refusal, 9);
        assert_eq!((calls.ows_check_strip)(null(), 0).refusal, 9);
        for convert in [calls.ows_shorten_strip, calls.ows_expand_strip] {
            assert_eq!(convert(null(), 0, buf.as_mut_ptr(), 4).refusal, 9);
            assert_eq!(convert(null(), 0, null_mut(), 0).refusal, 9);
        }
    }
    assert_eq!((buf, slots), ([5; 4], [6; 4]));
}
