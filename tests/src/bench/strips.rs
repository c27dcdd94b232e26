//! Writing, reading, checking and converting strips of both forms: a book of
//! many, so that no branch is learnt by heart.

use std::hint::black_box;

use super::lines::copying;
use super::time::{medians, Job};
use crate::answers::{Converted, Reading, Strips, Written};
use crate::archive::Direct;
use crate::natural::strip::Form;
use crate::natural::Natural;
use crate::random::Random;
use crate::reference::strip::MOST_ITEMS;

const STRIPS: usize = 64;
const ITEMS: usize = STRIPS * MOST_ITEMS;
const ROUNDS: usize = 61;

/// Room for the longest strip.
const ROOM: usize = 3 + (15 * MOST_ITEMS).div_ceil(8);

/// A version's calls on strips of a form: the one that writes them, the one
/// that converts them to the other form, and those that take both forms.
#[derive(Clone, Copy)]
struct Calls {
    write: fn(u8, &[u16], &mut [u8]) -> Written,
    convert: fn(&[u8], &mut [u8]) -> Converted,
    read: fn(&[u8], &mut [u16]) -> Reading,
    check: fn(&[u8]) -> Reading,
}

impl Calls {
    fn new<S: Strips>(form: Form) -> Self {
        let (write, convert): (fn(_, &_, &mut _) -> _, fn(&_, &mut _) -> _) = match form {
            Form::One => (S::write_strip, S::shorten_strip),
            Form::Two => (S::write_short_strip, S::expand_strip),
        };
        Calls {
            write,
            convert,
            read: S::read_strip,
            check: S::check_strip,
        }
    }
}

/// The items of each strip; their strips in a form, end to end; and those in
/// the other form.
pub struct Book {
    items: Vec<u16>,
    bytes: Vec<u8>,
    other: Vec<u8>,
    archive: Calls,
    natural: Calls,
}

impl Book {
    /// A book in a form whose items are gaps so often in 16.
    pub fn new(form: Form, gaps: usize) -> Self {
        let mut random = Random::new(502);
        let item = |random: &mut Random| match random.below(16) < gaps {
            true => random.item(8),
            false => random.item(0),
        };
        let items: Vec<u16> = (0..ITEMS).map(|_| item(&mut random)).collect();
        let (archive, natural) = (Calls::new::<Direct>(form), Calls::new::<Natural>(form));
        let [mut bytes, mut other] = [const { Vec::new() }; 2];
        let buf = &mut [0; ROOM];
        write(archive, &items, buf, |strip| bytes.extend(strip));
        convert(archive, &bytes, buf, |strip| other.extend(strip));
        Book {
            items,
            bytes,
            other,
            archive,
            natural,
        }
    }

    /// ns per item written: the archive, the natural version, copying.
    pub fn writing(&self) -> [f64; 3] {
        let items = &self.items[..];
        let mut bytes: Vec<u8> = Vec::new();
        write(self.natural, items, &mut [0; ROOM], |strip| {
            bytes.extend(strip);
        });
        assert!(bytes == self.bytes, "the two versions differ");
        let [archive, natural] = [self.archive, self.natural].map(|calls| {
            let mut buf = [0; ROOM];
            Job::new(ITEMS, move || {
                write(calls, items, &mut buf, |strip| {
                    black_box(strip);
                });
            })
        });
        medians(ROUNDS, [archive, natural, copying(ITEMS, items)])
    }

    /// ns per item read.
    pub fn reading(&self) -> [f64; 3] {
        let (bytes, archive, natural) = (&self.bytes[..], self.archive, self.natural);
        let [mut one, mut other] = [vec![0; ITEMS], vec![0; ITEMS]];
        let (to_one, to_other) = (&mut one, &mut other);
        let archive = Job::new(ITEMS, move || read(archive, bytes, to_one));
        let natural = Job::new(ITEMS, move || read(natural, bytes, to_other));
        let costs = medians(ROUNDS, [archive, natural, copying(ITEMS, bytes)]);
        assert!(
            one == self.items && other == self.items,
            "a version is wrong"
        );
        costs
    }

    /// ns per item checked.
    pub fn checking(&self) -> [f64; 3] {
        let bytes = &self.bytes[..];
        let [archive, natural] = [self.archive, self.natural]
            .map(|calls| Job::new(ITEMS, move || assert_eq!(check(calls, bytes), ITEMS)));
        medians(ROUNDS, [archive, natural, copying(ITEMS, bytes)])
    }

    /// ns per item converted to the other form.
    pub fn converting(&self) -> [f64; 3] {
        let bytes = &self.bytes[..];
        let mut other: Vec<u8> = Vec::new();
        convert(self.natural, bytes, &mut [0; ROOM], |strip| {
            other.extend(strip);
        });
        assert!(other == self.other, "the two versions differ");
        let [archive, natural] = [self.archive, self.natural].map(|calls| {
            let mut buf = [0; ROOM];
            Job::new(ITEMS, move || {
                convert(calls, bytes, &mut buf, |strip| {
                    black_box(strip);
                });
            })
        });
        medians(ROUNDS, [archive, natural, copying(ITEMS, bytes)])
    }
}

/// Writes the items, strip by strip, to one buffer.
fn write(calls: Calls, items: &[u16], buf: &mut [u8], mut take: impl FnMut(&[u8])) {
    for (lane, items) in items.chunks(MOST_ITEMS).enumerate() {
        let written = (calls.write)(lane as u8, black_box(items), buf);
        assert_eq!(written.refusal, 0);
        take(&buf[..written.bytes]);
    }
}

/// Reads a book by the bytes used.
fn read(calls: Calls, bytes: &[u8], slots: &mut [u16]) {
    let (mut bytes, mut slots) = (black_box(bytes), slots);
    while !bytes.is_empty() {
        let reading = (calls.read)(bytes, slots);
        assert_eq!(reading.refusal, 0);
        bytes = &bytes[reading.used..];
        slots = &mut slots[usize::from(reading.count)..];
    }
}

/// Checks a book by the bytes used; its items.
fn check(calls: Calls, bytes: &[u8]) -> usize {
    let (mut bytes, mut items) = (black_box(bytes), 0);
    while !bytes.is_empty() {
        let reading = (calls.check)(bytes);
        assert_eq!(reading.refusal, 0);
        bytes = &bytes[reading.used..];
        items += usize::from(reading.count);
    }
    items
}

/// Converts a book by the bytes used, strip by strip, to one buffer.
fn convert(calls: Calls, bytes: &[u8], buf: &mut [u8], mut take: impl FnMut(&[u8])) {
    let mut bytes = black_box(bytes);
    while !bytes.is_empty() {
        let converted = (calls.convert)(bytes, buf);
        assert_eq!(converted.refusal, 0);
        bytes = &bytes[converted.used..];
        take(&buf[..converted.bytes]);
    }
}
