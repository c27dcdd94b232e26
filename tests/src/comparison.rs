//! Calls of one version on strips, the archive's above all, each compared with
//! the slow version: the same refusal, the same values, the same content of
//! every buffer byte and slot.

use std::fmt::{Debug, LowerHex};
use std::marker::PhantomData;

use crate::answers::{Converted, Strips, Written};
use crate::archive::{fail, short};
use crate::counts::Counts;
use crate::random::Random;
use crate::reference::calls as slow;
use crate::reference::strip::Form;

/// A call that writes a strip: by the version, and by the slow version.
type Writes = [fn(u8, &[u16], &mut [u8]) -> Written; 2];

/// A call that converts a strip: by the version, and by the slow version.
type Conversions = [fn(&[u8], &mut [u8]) -> Converted; 2];

/// One part of the comparison, with its counts.
pub struct Comparison<S> {
    /// For buffer contents, and for the lists the part makes up.
    pub random: Random,
    counts: Counts,
    version: PhantomData<S>,
}

impl<S: Strips> Comparison<S> {
    /// A part before its first call.
    pub fn new(seed: u64) -> Self {
        Comparison {
            random: Random::new(seed),
            counts: Counts::default(),
            version: PhantomData,
        }
    }

    /// Writes a strip in form one to a buffer of that many bytes of any content.
    #[track_caller]
    pub fn write(&mut self, lane: u8, items: &[u16], room: usize) {
        let calls = [S::write_strip, slow::write_strip];
        self.write_by("write", calls, lane, items, room);
    }

    /// The same in form two.
    #[track_caller]
    pub fn write_short(&mut self, lane: u8, items: &[u16], room: usize) {
        let calls = [S::write_short_strip, slow::write_short_strip];
        self.write_by("write short", calls, lane, items, room);
    }

    /// The same in that form.
    #[track_caller]
    pub fn write_in(&mut self, form: Form, lane: u8, items: &[u16], room: usize) {
        match form {
            Form::One => self.write(lane, items, room),
            Form::Two => self.write_short(lane, items, room),
        }
    }

    /// Reads a strip into that many slots of any content.
    #[track_caller]
    pub fn read(&mut self, bytes: &[u8], room: usize) {
        let before = self.random.slots(room);
        let answers = [S::read_strip, slow::read_strip]
            .map(|call| lending(&before, |slots| call(bytes, slots)));
        let asked = || format!("read, bytes {}, slots {}", short(bytes), short(&before));
        self.judge(answers[1].0.refusal, &answers, asked);
    }

    /// Checks a strip.
    #[track_caller]
    pub fn check(&mut self, bytes: &[u8]) {
        let answers =
            [S::check_strip, slow::check_strip].map(|call| lending(&[0_u8; 0], |_| call(bytes)));
        let asked = || format!("check, bytes {}", short(bytes));
        self.judge(answers[1].0.refusal, &answers, asked);
    }

    /// Converts a strip to form two, into a buffer of that many bytes of any
    /// content.
    #[track_caller]
    pub fn shorten(&mut self, bytes: &[u8], room: usize) {
        self.convert_by(
            "shorten",
            [S::shorten_strip, slow::shorten_strip],
            bytes,
            room,
        );
    }

    /// The same to form one.
    #[track_caller]
    pub fn expand(&mut self, bytes: &[u8], room: usize) {
        self.convert_by("expand", [S::expand_strip, slow::expand_strip], bytes, room);
    }

    /// The same to that form.
    #[track_caller]
    pub fn convert(&mut self, wanted: Form, bytes: &[u8], room: usize) {
        match wanted {
            Form::One => self.expand(bytes, room),
            Form::Two => self.shorten(bytes, room),
        }
    }

    #[track_caller]
    fn write_by(&mut self, name: &str, calls: Writes, lane: u8, items: &[u16], room: usize) {
        let before = self.random.bytes(room);
        let answers = calls.map(|call| lending(&before, |buf| call(lane, items, buf)));
        let asked = || {
            let (items, before) = (short(items), short(&before));
            format!("{name}, lane {lane}, items {items}, buffer {before}")
        };
        self.judge(answers[1].0.refusal, &answers, asked);
    }

    #[track_caller]
    fn convert_by(&mut self, name: &str, calls: Conversions, bytes: &[u8], room: usize) {
        let before = self.random.bytes(room);
        let answers = calls.map(|call| lending(&before, |buf| call(bytes, buf)));
        let asked = || format!("{name}, bytes {}, buffer {}", short(bytes), short(&before));
        self.judge(answers[1].0.refusal, &answers, asked);
    }

    /// Counts a call and demands that the version's answer and buffer are those
    /// of the slow version, which come second.
    #[track_caller]
    fn judge<A: Debug + PartialEq, E: LowerHex + PartialEq>(
        &mut self,
        refusal: u8,
        [(answer, buffer), (expected, expected_buffer)]: &[(A, Vec<E>); 2],
        asked: impl FnOnce() -> String,
    ) {
        self.counts.add(refusal);
        if answer == expected && buffer == expected_buffer {
            return;
        }
        fail(&format!(
            "{}\n  {}: {answer:?}, then in it {}\n  slow version: {expected:?}, then in it {}\n  \
             first difference in it: {:?}",
            asked(),
            S::NAME,
            short(buffer),
            short(expected_buffer),
            first_difference(buffer, expected_buffer),
        ));
    }

    /// Ends the part: prints its counts, and demands at least that many calls
    /// and each of these answers at least 20 times.
    #[track_caller]
    pub fn end(self, part: &str, least: u64, answers: &[usize]) {
        self.counts.end(part, least, answers);
    }
}

/// The answer of a call that is lent a buffer of that content, and the buffer
/// after it.
fn lending<A, E: Clone>(before: &[E], call: impl FnOnce(&mut [E]) -> A) -> (A, Vec<E>) {
    let mut buffer = before.to_vec();
    let answer = call(&mut buffer);
    (answer, buffer)
}

/// The first place where two lists of one length differ.
pub(crate) fn first_difference<T: PartialEq>(one: &[T], other: &[T]) -> Option<usize> {
    (0..one.len()).find(|place| one[*place] != other[*place])
}
