//! The numbers of a call, each of which can be changed by its place, and the
//! list of a call, which can be shortened.

use std::ops::Range;

use super::step::Room;
use crate::lane_records::ALIGNMENTS;
use crate::records::{FeedCall, Receiver, Sender, FEED_CALLS};
use crate::reference::strip::{Form, FORMS};

/// What every number is passed through.
pub type Change<'a> = dyn FnMut(i128) -> i128 + 'a;

/// What has numbers, always in the same order.
pub trait Numbers {
    fn pass(&mut self, change: &mut Change);
}

macro_rules! are_numbers {
    ($($kind:ty)*) => {
        $(impl Numbers for $kind {
            fn pass(&mut self, change: &mut Change) {
                *self = change(*self as i128) as $kind;
            }
        })*
    };
}
are_numbers!(u8 u16 u32 u64 usize i32);

impl<T: Numbers> Numbers for Vec<T> {
    fn pass(&mut self, change: &mut Change) {
        for element in self {
            element.pass(change);
        }
    }
}

impl Numbers for Room {
    fn pass(&mut self, change: &mut Change) {
        self.size.pass(change);
        self.fill.pass(change);
    }
}

/// The place among the two calls: `ows_feed` is the smaller one.
impl Numbers for FeedCall {
    fn pass(&mut self, change: &mut Change) {
        let place = FEED_CALLS.iter().position(|call| call == self);
        let changed = change(place.map_or(0, |place| place as i128));
        *self = FEED_CALLS[usize::from(changed != 0)];
    }
}

/// The place among the two forms: form one is the smaller one.
impl Numbers for Form {
    fn pass(&mut self, change: &mut Change) {
        let changed = change(i128::from(self.number()) - 1);
        *self = FORMS[usize::from(changed != 0)];
    }
}

/// A number of alignment frames. A permitted one is counted from 12 on in steps
/// of 2, so that a smaller one is permitted too.
pub fn pass_alignment(alignment: &mut u32, change: &mut Change) {
    match ALIGNMENTS.iter().position(|number| number == alignment) {
        Some(place) => *alignment = (12 + 2 * change(place as i128)) as u32,
        None => alignment.pass(change),
    }
}

impl Numbers for Sender {
    fn pass(&mut self, change: &mut Change) {
        for word in [&mut self.seed, &mut self.state, &mut self.clock] {
            word.pass(change);
        }
        self.r.pass(change);
        // The fewer frames of the sequence are left, the smaller; they stay as
        // many with another number of alignment frames.
        let end = |alignment: u32| i128::from(alignment) + 32;
        let left = change(end(self.alignment) - i128::from(self.position));
        pass_alignment(&mut self.alignment, change);
        self.position = (end(self.alignment) - left) as u32;
    }
}

impl Numbers for Receiver {
    fn pass(&mut self, change: &mut Change) {
        let words = [
            &mut self.mode,
            &mut self.bits,
            &mut self.count,
            &mut self.frame,
            &mut self.word,
            &mut self.read,
            &mut self.results,
            &mut self.state,
            &mut self.clock,
        ];
        for word in words {
            word.pass(change);
        }
        for total in [&mut self.samples, &mut self.gaps, &mut self.losses] {
            total.pass(change);
        }
        for sum in [&mut self.sum, &mut self.lowest, &mut self.highest] {
            sum.pass(change);
        }
    }
}

/// The list of a call that has one.
pub enum List<'a> {
    Bytes(&'a mut Vec<u8>),
    Numbers(&'a mut Vec<u16>),
}

impl List<'_> {
    pub fn len(&self) -> usize {
        match self {
            List::Bytes(list) => list.len(),
            List::Numbers(list) => list.len(),
        }
    }

    /// Takes elements out.
    pub fn remove(self, places: Range<usize>) {
        match self {
            List::Bytes(list) => drop(list.drain(places)),
            List::Numbers(list) => drop(list.drain(places)),
        }
    }

    /// Makes all elements 0.
    pub fn clear(self) {
        match self {
            List::Bytes(list) => list.fill(0),
            List::Numbers(list) => list.fill(0),
        }
    }
}
