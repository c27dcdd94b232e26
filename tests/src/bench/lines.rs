//! Feeding and sending lines.

use std::hint::black_box;

use super::time::{least, medians, Job};
use crate::archive::Direct;
use crate::natural::receiver::Receiver as NaturalReceiver;
use crate::natural::sender::Sender as NaturalSender;
use crate::random::Random;
use crate::records::{Fed, Lane, Receiver, Sender, LOCKED};

const SEED: u32 = 1;

/// Frames after which both scrambler and clock bit are where they were, so
/// that a locked line can be fed again and again.
pub(super) const PERIOD: usize = 2 * 131_071;

/// How often a line of that period makes 100 MB.
const OVER: usize = 191;

const KB: usize = 1_000;
const ROUNDS: usize = 61;

/// A line to be fed, and its samples.
pub struct Input {
    pub(super) sequence: Vec<u8>,
    pub(super) samples: Vec<u16>,
    pub(super) line: Vec<u8>,
    pub(super) noise: Vec<u8>,
}

impl Default for Input {
    fn default() -> Self {
        let mut random = Random::new(501);
        let samples: Vec<u16> = (0..PERIOD).map(|_| random.below(16384) as u16).collect();
        let (mut sequence, mut line) = (vec![0; 128], vec![0; 2 * PERIOD]);
        let sender = Direct::send(Direct::start(SEED).sender, &[], &mut sequence).sender;
        Direct::send(sender, &samples, &mut line);
        Input {
            sequence,
            samples,
            line,
            noise: random.bytes(500 * KB),
        }
    }
}

/// A job that copies a list to a buffer of its size.
pub fn copying<'a, T: Copy + Default + 'a>(units: usize, list: &'a [T]) -> Job<'a> {
    let mut copy = vec![T::default(); list.len()];
    Job::new(units, move || {
        black_box(&mut copy).copy_from_slice(black_box(list));
    })
}

/// Feeding a line in one call: the archive, the natural version, copying.
fn feeding(
    (mut archive, mut natural): (Receiver, NaturalReceiver),
    line: &[u8],
    slots: &mut [Vec<u16>; 2],
) -> [f64; 3] {
    let [one, other] = slots;
    let bits = 8 * line.len();
    let archive = Job::new(bits, move || {
        archive = Direct::feed(archive, black_box(line), one).receiver;
    });
    let natural = Job::new(bits, move || {
        black_box(natural.feed(black_box(line), other));
    });
    medians(ROUNDS, [archive, natural, copying(bits, line)])
}

impl Input {
    /// Receivers that have locked on the sequence.
    pub(super) fn locked(&self) -> (Receiver, NaturalReceiver) {
        let mut natural = NaturalReceiver::default();
        natural.feed(&self.sequence, &mut [0]);
        let archive = Direct::feed(Direct::fresh(), &self.sequence, &mut [0]).receiver;
        assert_eq!(archive.mode, LOCKED);
        (archive, natural)
    }

    /// Senders past the sequence.
    pub(super) fn past_sequence(&self) -> (Sender, NaturalSender) {
        let mut natural = NaturalSender::start(SEED).expect("the seed is permitted");
        natural.send(&[], &mut [0; 128]).expect("no sample");
        let archive = Direct::send(Direct::start(SEED).sender, &[], &mut [0; 128]).sender;
        (archive, natural)
    }

    /// ns per bit of a locked line: the archive, the natural version, copying.
    pub fn locked_line(&self) -> [f64; 3] {
        let room = self.line.len();
        let mut slots = [vec![0; room], vec![0; room]];
        let costs = feeding(self.locked(), &self.line, &mut slots);
        let items = slots.each_ref().map(|slots| &slots[..PERIOD]);
        assert!(items == [&self.samples[..]; 2], "a version is wrong");
        costs
    }

    /// ns per bit of noise.
    pub fn noise(&self) -> [f64; 3] {
        let room = self.noise.len();
        let hunting = (Direct::fresh(), NaturalReceiver::default());
        feeding(hunting, &self.noise, &mut [vec![0; room], vec![0; room]])
    }

    /// ns per bit of a line sent in one call, past the sequence.
    pub fn sending(&self) -> [f64; 3] {
        let (mut archive, mut natural) = self.past_sequence();
        let samples = &self.samples[..];
        let bits = 16 * samples.len();
        let [mut one, mut other] = [vec![0; 2 * PERIOD], vec![0; 2 * PERIOD]];
        let (to_one, to_other) = (&mut one, &mut other);
        let archive = Job::new(bits, move || {
            archive = Direct::send(archive, black_box(samples), to_one).sender;
        });
        let natural = Job::new(bits, move || {
            let sent = natural.send(black_box(samples), to_other);
            sent.expect("the samples are in range");
        });
        let costs = medians(ROUNDS, [archive, natural, copying(bits, samples)]);
        assert!(one == other, "the two versions differ");
        costs
    }

    /// ns per bit on a line of 1 kB and on one of 100 MB, of `ows_feed` and of
    /// `ows_feed_frames`. The two jobs of a call take as long, so that what else
    /// runs disturbs both alike.
    pub fn lengths(&self) -> [[f64; 2]; 2] {
        let short = &self.line[..KB];
        let long = self.line.repeat(OVER);
        let over = long.len() / KB;
        let (locked, _) = self.locked();
        let jobs = [
            calls(Direct::feed, locked, short, over),
            calls(Direct::feed, locked, &long, 1),
            calls(Direct::feed_frames, locked, short, over),
            calls(Direct::feed_frames, locked, &long, 1),
        ];
        let [short, long, short_frames, long_frames] = least(11, jobs);
        [[short, long], [short_frames, long_frames]]
    }
}

/// A call of the archive that feeds, or a version of it.
pub(super) type Feed = fn(Receiver, &[u8], &mut [u16]) -> Fed;

/// A job that feeds a line to the archive in one call, so many times, each
/// time from the same record.
fn calls(feed: Feed, start: Receiver, line: &[u8], over: usize) -> Job<'_> {
    let mut slots = vec![0; line.len() / 2 + 1];
    Job::new(8 * line.len() * over, move || {
        for _ in 0..over {
            let fed = feed(start, black_box(line), &mut slots);
            assert_eq!(fed.bytes, line.len());
        }
    })
}
