//! Reading and building a million frames, never inverted, half of them at
//! random, and always, one by one and as a line.

use std::hint::black_box;

use super::inversion::{is_inverted, Frames, Given, FRAMES, SEED};
use super::lines::Feed;
use super::time::{compared, Compared, Job};
use crate::answers::{Built, Content};
use crate::archive::{Direct, ARCHIVE};
use crate::records::{locked, Lane, Sender};

const ROUNDS: usize = 61;

/// Makes a call for each of a list and writes what it gave.
fn each<T: Copy>(call: impl Fn(T) -> u16 + Copy) -> impl Fn(&[T], &mut [u16]) + Copy {
    move |list, results| {
        for (given, result) in list.iter().zip(results) {
            *result = call(*given);
        }
    }
}

/// A job that reads one list and writes another.
fn job<'a, T, U>(
    list: &'a [T],
    results: &'a mut [U],
    run: impl Fn(&[T], &mut [U]) + 'a,
) -> Job<'a> {
    Job::new(FRAMES, move || run(black_box(list), black_box(results)))
}

/// ns per frame of the same run on three lists, which must give these results.
fn costs<T, U: Copy + Default + PartialEq>(
    lists: &[Vec<T>; 3],
    run: impl Fn(&[T], &mut [U]) + Copy,
    expected: [&Vec<U>; 3],
) -> Compared<3> {
    let mut results = expected.map(|list| vec![U::default(); list.len()]);
    let [never, half, always] = results.each_mut();
    let jobs = [
        job(&lists[0], never, run),
        job(&lists[1], half, run),
        job(&lists[2], always, run),
    ];
    let costs = compared(ROUNDS, jobs);
    assert!(results.each_ref() == expected, "a result is wrong");
    costs
}

/// The content as a frame with disparity bit 0.
fn plain(content: Content) -> u16 {
    content.scrambled | (content.clock << 14) as u16
}

/// What `ows_read` does, with a branch on the disparity bit: `black_box` in
/// both arms keeps it a branch.
#[inline(never)]
extern "C" fn read_with_branch(frame: u16) -> Content {
    let plain = if is_inverted(frame) {
        black_box(!frame)
    } else {
        black_box(frame)
    };
    Content {
        clock: u32::from(plain >> 14),
        scrambled: plain & 0x3FFF,
        disparity: 2 * frame.count_ones() as i32 - 16,
        inverted: u32::from(frame >> 15),
    }
}

/// What `ows_build` does where nothing is refused, with such a branch.
#[inline(never)]
extern "C" fn build_with_branch(sample: u16, state: u32, clock: u32, r: i32) -> Built {
    let plain = (sample ^ (state & 0x3FFF) as u16) | (clock << 14) as u16;
    let disparity = 2 * plain.count_ones() as i32 - 16;
    let (frame, disparity) = if (r + disparity).abs() > 16 {
        (black_box(!plain), -disparity)
    } else {
        (black_box(plain), disparity)
    };
    Built {
        refusal: 0,
        frame,
        r: r + disparity,
    }
}

/// ns per frame of one call for each, or of one call for the line.
impl Frames {
    pub fn reading(&self) -> Compared<3> {
        let run = each(|frame| plain((ARCHIVE.ows_read)(frame)));
        costs(&self.frames, run, [&self.frames[0]; 3])
    }

    pub fn reading_with_branch(&self) -> Compared<3> {
        let run = each(|frame| plain(read_with_branch(frame)));
        costs(&self.frames, run, [&self.frames[0]; 3])
    }

    pub fn reading_samples(&self) -> Compared<3> {
        let states = self.given[0].iter().map(|given| given.state);
        let lists = self.frames.each_ref().map(|frames| {
            let frames = frames.iter().copied();
            frames.zip(states.clone()).collect()
        });
        let run = each(|(frame, state)| (ARCHIVE.ows_read_sample)(frame, state).sample);
        costs(&lists, run, self.samples().each_ref())
    }

    pub fn building(&self) -> Compared<3> {
        let run = each(|given: Given| {
            let (clock, r) = (given.clock.into(), given.r.into());
            (ARCHIVE.ows_build)(given.sample, given.state, clock, r).frame
        });
        costs(&self.given, run, self.frames.each_ref())
    }

    pub fn building_with_branch(&self) -> Compared<3> {
        let run = each(|given: Given| {
            let (clock, r) = (given.clock.into(), given.r.into());
            build_with_branch(given.sample, given.state, clock, r).frame
        });
        costs(&self.given, run, self.frames.each_ref())
    }

    /// The frames as a line, to a receiver that has locked.
    pub fn feeding(&self) -> Compared<3> {
        self.feeding_by(Direct::feed)
    }

    /// The same by `ows_feed_frames`.
    pub fn feeding_frames(&self) -> Compared<3> {
        self.feeding_by(Direct::feed_frames)
    }

    fn feeding_by(&self, feed: Feed) -> Compared<3> {
        let run = |line: &[u8], slots: &mut [u16]| {
            feed(locked(0, SEED, 0), line, slots);
        };
        costs(&self.lines(), run, self.samples().each_ref())
    }

    /// Other samples, to a sender past its sequence.
    pub fn sending(&self) -> Compared<3> {
        let frames = self.for_sender();
        let start = Sender {
            seed: SEED,
            state: SEED,
            clock: 0,
            r: -6,
            position: 64,
            alignment: 32,
        };
        let run = |samples: &[u16], buf: &mut [u8]| {
            Direct::send(start, samples, buf);
        };
        costs(&frames.samples(), run, frames.lines().each_ref())
    }
}
