//! Values of document 02's Q-8 made by hand, through the calls of the slow version
//! and of the archive.

use owsopel_tests::answers::{Converted, Reading, Written};
use owsopel_tests::archive::{Calls, ARCHIVE};
use owsopel_tests::reference::functions::SLOW;
use owsopel_tests::reference::strip::GAP;

/// The versions tried.
const VERSIONS: [Calls; 2] = [SLOW, ARCHIVE];

/// What fills a byte or a slot before a call.
const OLD: u8 = 0xA5;
const OLD_SLOT: u16 = 0xBEEF;

/// A lane, its items, and the strip in form one and in form two.
type Strip = (u8, &'static [u16], &'static [u8], &'static [u8]);

/// Document 01's three strips, and some with runs.
const STRIPS: [Strip; 6] = [
    (
        5,
        &[1, GAP],
        &[0x00, 0x02, 0x05, 0x80, 0x02],
        &[0xE0, 0x02, 0x05, 0x80, 0x02, 0x00],
    ),
    (
        0,
        &[16383],
        &[0x00, 0x01, 0x00, 0xFF, 0xFE],
        &[0xE0, 0x01, 0x00, 0xFF, 0xFE],
    ),
    (7, &[], &[0x00, 0x00, 0x07], &[0xE0, 0x00, 0x07]),
    (
        255,
        &[GAP; 9],
        &[0x00, 0x09, 0xFF, 0x00, 0x00],
        &[0xE0, 0x09, 0xFF, 0x04, 0x00],
    ),
    // A run of 256 and one of 1: 0 11111111 0 00000000.
    (
        1,
        &[GAP; 257],
        &{
            let mut bytes = [0; 36];
            (bytes[0], bytes[1], bytes[2]) = (0x01, 0x01, 0x01);
            bytes
        },
        &[0xE1, 0x01, 0x01, 0x7F, 0x80, 0x00],
    ),
    // 16 runs of 256.
    (
        2,
        &[GAP; 4096],
        &{
            let mut bytes = [0; 515];
            (bytes[0], bytes[1], bytes[2]) = (0x10, 0x00, 0x02);
            bytes
        },
        &[
            0xF0, 0x00, 0x02, 0x7F, 0xBF, 0xDF, 0xEF, 0xF7, 0xFB, 0xFD, 0xFE, 0xFF, 0x7F, 0xBF,
            0xDF, 0xEF, 0xF7, 0xFB, 0xFD, 0xFE, 0xFF,
        ],
    ),
];

#[test]
fn strips_written_read_and_checked() {
    for calls in VERSIONS {
        for (lane, items, one, two) in STRIPS {
            for (form, bytes) in [(1, one), (2, two)] {
                let mut buf = vec![OLD; bytes.len() + 1];
                let written = match form {
                    1 => calls.write_strip(lane, items, &mut buf),
                    _ => calls.write_short_strip(lane, items, &mut buf),
                };
                let (refusal, used) = (0, bytes.len());
                let expected = Written {
                    refusal,
                    bytes: used,
                };
                assert_eq!(written, Ok(expected));
                assert_eq!(buf, [bytes, &[OLD]].concat());

                let mut slots = vec![OLD_SLOT; items.len() + 1];
                let expected = Reading {
                    refusal,
                    lane,
                    count: items.len() as u16,
                    form,
                    used,
                };
                assert_eq!(calls.read_strip(&buf, &mut slots), Ok(expected));
                assert_eq!(slots, [items, &[OLD_SLOT]].concat());
                assert_eq!(calls.check_strip(&buf), Ok(expected));
            }
        }
    }
}

#[test]
fn strips_converted() {
    for calls in VERSIONS {
        for (_, _, one, two) in STRIPS {
            for bytes in [one, two] {
                for (wanted, to_form_one) in [(one, true), (two, false)] {
                    let mut buf = vec![OLD; wanted.len() + 1];
                    let converted = match to_form_one {
                        true => calls.expand_strip(bytes, &mut buf),
                        false => calls.shorten_strip(bytes, &mut buf),
                    };
                    let expected = Converted {
                        refusal: 0,
                        used: bytes.len(),
                        bytes: wanted.len(),
                    };
                    assert_eq!(converted, Ok(expected));
                    assert_eq!(buf, [wanted, &[OLD]].concat());
                }
            }
        }
    }
}

/// Bytes, and the refusal of every call that takes them, with slots and bytes
/// enough.
const REFUSED: [(&[u8], u8); 17] = [
    (&[], 9),
    (&[0xE0, 0x00], 9),
    // The first three bits, also with a count above 4096.
    (&[0x20, 0x00, 7], 20),
    (&[0x40, 0x00, 7], 20),
    (&[0x60, 0x00, 7], 20),
    (&[0x80, 0x00, 7], 20),
    (&[0xA0, 0x00, 7], 20),
    (&[0xDF, 0xFF, 7], 20),
    (&[0x10, 0x01, 7], 10),
    (&[0xF0, 0x01, 7], 10),
    // Eight bits of a run that would go past the count; all nine of it.
    (&[0xE0, 0x01, 7, 0x7F], 12),
    (&[0xE0, 0x01, 7, 0x7F, 0x80], 21),
    // Runs of 1 and 1, the second one with 7 of its bits and with all.
    (&[0xE0, 0x02, 7, 0x00, 0x00], 12),
    (&[0xE0, 0x02, 7, 0x00, 0x00, 0x00], 21),
    // Runs of 255 and 1, and of 256 and 1 before a sample that is missing.
    (&[0xE1, 0x00, 7, 0x7F, 0x00, 0x00], 21),
    (&[0xE1, 0x02, 7, 0x7F, 0x80, 0x00], 12),
    (&[0xE0, 0x01, 7, 0x00, 0x01], 13),
];

#[test]
fn bytes_refused() {
    for calls in VERSIONS {
        for (bytes, refusal) in REFUSED {
            let expected = Reading {
                refusal,
                ..Reading::default()
            };
            let mut slots = [OLD_SLOT; 4096];
            assert_eq!(calls.read_strip(bytes, &mut slots), Ok(expected));
            assert_eq!(calls.check_strip(bytes), Ok(expected), "{bytes:x?}");
            let expected = Converted {
                refusal,
                ..Converted::default()
            };
            let mut buf = [OLD; 600];
            assert_eq!(calls.shorten_strip(bytes, &mut buf), Ok(expected));
            assert_eq!(calls.expand_strip(bytes, &mut buf), Ok(expected));
            assert_eq!((slots, buf), ([OLD_SLOT; 4096], [OLD; 600]));
        }
    }
}
