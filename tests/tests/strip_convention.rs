//! How numbers and buffers pass between Rust and the archive in the calls on
//! strips: answers in two registers and in memory, a lane with bits above it in
//! its register, and buffers at every address.

use std::mem::transmute;

use owsopel_tests::answers::{Converted, Reading, Written};
use owsopel_tests::archive::ARCHIVE;
use owsopel_tests::reference::calls as slow;
use owsopel_tests::reference::strip::{short_strip, strip, GAP};

/// A strip of lane and items in each form, with the form's number.
fn strips(lane: u8, items: &[u16]) -> [(u8, Vec<u8>); 2] {
    [(1, strip(lane, items)), (2, short_strip(lane, items))]
}

/// Lists of which a strip in form two has another length than one in form one.
fn lists() -> [Vec<u16>; 4] {
    [
        vec![0x3FFF, GAP],
        vec![GAP; 300],
        [vec![0x2AAA; 7], vec![GAP; 60]].concat(),
        vec![0x1555; 4096],
    ]
}

const LANES: [u8; 4] = [0, 0x7F, 0x80, u8::MAX];

#[test]
fn answers_of_writing_in_two_registers() {
    for (lane, items) in LANES.into_iter().zip(lists()) {
        for (form, strip) in strips(lane, &items) {
            let mut buf = vec![0xA5; strip.len() + 1];
            let write = match form {
                1 => ARCHIVE.ows_write_strip,
                _ => ARCHIVE.ows_write_short_strip,
            };
            // SAFETY: the pointers hold for the lengths.
            let written = unsafe {
                let (items, length) = (items.as_ptr(), items.len());
                write(lane, items, length, buf.as_mut_ptr(), buf.len())
            };
            let (refusal, bytes) = (0, strip.len());
            assert_eq!(written, Written { refusal, bytes });
            assert_eq!(buf, [&strip[..], &[0xA5]].concat());
        }
    }
}

/// Each field of the answer another number.
#[test]
fn answers_of_reading_in_two_registers() {
    for (lane, items) in LANES.into_iter().zip(lists()) {
        for (form, bytes) in strips(lane, &items) {
            let mut slots = vec![0xBEEF; items.len() + 1];
            // SAFETY: the pointers hold for the lengths.
            let [reading, checked] = unsafe {
                let (slots, room) = (slots.as_mut_ptr(), slots.len());
                [
                    (ARCHIVE.ows_read_strip)(bytes.as_ptr(), bytes.len(), slots, room),
                    (ARCHIVE.ows_check_strip)(bytes.as_ptr(), bytes.len()),
                ]
            };
            let expected = Reading {
                refusal: 0,
                lane,
                count: items.len() as u16,
                form,
                used: bytes.len(),
            };
            assert_eq!([reading, checked], [expected; 2]);
            assert_eq!(slots, [&items[..], &[0xBEEF]].concat());
        }
    }
}

/// Taken and refused, each field of the answer another number.
#[test]
fn answers_of_converting_in_memory() {
    for (lane, items) in LANES.into_iter().zip(lists()) {
        let strips = strips(lane, &items);
        for (_, bytes) in &strips {
            for (wanted, expected) in &strips {
                let convert = match wanted {
                    1 => ARCHIVE.ows_expand_strip,
                    _ => ARCHIVE.ows_shorten_strip,
                };
                let mut buf = vec![0xA5; expected.len() + 1];
                let convert_into = |buf: &mut [u8]| {
                    let (given, room) = (bytes.len(), buf.len());
                    // SAFETY: the pointers hold for the lengths.
                    unsafe { convert(bytes.as_ptr(), given, buf.as_mut_ptr(), room) }
                };
                let told = Converted {
                    refusal: 0,
                    used: bytes.len(),
                    bytes: expected.len(),
                };
                assert_eq!(convert_into(&mut buf), told);
                assert_eq!(buf, [&expected[..], &[0xA5]].concat());
                let short = expected.len() - 1;
                let (refusal, used) = (8, 0);
                let refused = Converted {
                    refusal,
                    used,
                    bytes: 0,
                };
                buf.fill(0xA5);
                assert_eq!(convert_into(&mut buf[..short]), refused);
                assert!(buf.iter().all(|byte| *byte == 0xA5));
            }
        }
    }
}

/// The convention leaves open what a register has above a number.
#[test]
fn bits_above_a_lane() {
    type Narrow = unsafe extern "C" fn(u8, *const u16, usize, *mut u8, usize) -> Written;
    type Wide = unsafe extern "C" fn(u64, *const u16, usize, *mut u8, usize) -> Written;
    let items = [1, GAP];
    for (write, expected) in [
        (ARCHIVE.ows_write_strip, strip(0x9C, &items)),
        (ARCHIVE.ows_write_short_strip, short_strip(0x9C, &items)),
    ] {
        // SAFETY: a number of any width is passed in the same register.
        let write = unsafe { transmute::<Narrow, Wide>(write) };
        for above in [0, 0x5A5A_5A5A_5A5A_5A5A, u64::MAX] {
            let (lane, mut buf) = (above << 8 | 0x9C, vec![0; expected.len()]);
            // SAFETY: the pointers hold for the lengths.
            let written =
                unsafe { write(lane, items.as_ptr(), 2, buf.as_mut_ptr(), expected.len()) };
            assert_eq!((written.refusal, &buf), (0, &expected));
        }
    }
}

/// A buffer of that content at each address modulo 16, for bytes.
fn at_every_address(content: &[u8], mut call: impl FnMut(&mut [u8])) {
    for start in 0..16 {
        let mut all = vec![0x5A; content.len() + 32];
        let address = all.as_ptr() as usize;
        let first = (16 - address % 16) % 16 + start;
        all[first..first + content.len()].copy_from_slice(content);
        call(&mut all[first..first + content.len()]);
        let (before, rest) = all.split_at(first);
        let after = &rest[content.len()..];
        assert!(before.iter().chain(after).all(|byte| *byte == 0x5A));
    }
}

/// Bytes read from, and buffers written to, at every address modulo 16.
#[test]
fn buffers_at_every_address() {
    let items = [vec![0x2AAA; 3], vec![GAP; 40], vec![0x1555; 4]].concat();
    for (form, bytes) in strips(0x9C, &items) {
        at_every_address(&bytes, |bytes| {
            let mut slots = vec![0; items.len()];
            // SAFETY: the pointers hold for the lengths.
            let [reading, checked] = unsafe {
                let (slots, room) = (slots.as_mut_ptr(), slots.len());
                [
                    (ARCHIVE.ows_read_strip)(bytes.as_ptr(), bytes.len(), slots, room),
                    (ARCHIVE.ows_check_strip)(bytes.as_ptr(), bytes.len()),
                ]
            };
            assert_eq!([reading, checked], [slow::check_strip(bytes); 2]);
            assert_eq!((reading.form, &slots), (form, &items));
        });
        for (wanted, expected) in strips(0x9C, &items) {
            let convert = match wanted {
                1 => ARCHIVE.ows_expand_strip,
                _ => ARCHIVE.ows_shorten_strip,
            };
            at_every_address(&bytes, |bytes| {
                at_every_address(&vec![0; expected.len()], |buf| {
                    let (given, room) = (bytes.len(), buf.len());
                    // SAFETY: the pointers hold for the lengths.
                    let converted =
                        unsafe { convert(bytes.as_ptr(), given, buf.as_mut_ptr(), room) };
                    assert_eq!((converted.refusal, converted.used), (0, given));
                    assert_eq!(buf, expected);
                });
            });
        }
    }
}
