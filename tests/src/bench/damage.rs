//! Damaged lines, from a receiver that has locked: faulty frames with lock kept,
//! and lock lost again and again.

use super::lines::{Input, PERIOD};
use super::time::Compared;
use super::ways::costs;
use crate::archive::Direct;
use crate::random::Random;
use crate::records::{Lane, LOCKED};

/// The frames of a sequence.
const SEQUENCE: usize = 64;

/// Makes frames of a line faulty: their clock bits are flipped.
fn spoil(line: &mut [u8], faulty: &[bool]) {
    for (frame, faulty) in line.chunks_exact_mut(2).zip(faulty) {
        frame[1] ^= u8::from(*faulty) << 6;
    }
}

/// One frame in so many, at random, but for those that would lose lock.
fn keeping_lock(frames: usize, one_in: usize, random: &mut Random) -> Vec<bool> {
    let mut results = 0_u8;
    let choose = |_| {
        results <<= 1;
        let faulty = results.count_ones() < 3 && random.one_in(one_in);
        results |= u8::from(faulty);
        faulty
    };
    (0..frames).map(choose).collect()
}

/// Which frames of a stretch before a new sequence are faulty.
pub type Faults = fn(usize, &mut Random) -> Vec<bool>;

/// Half of them, at random.
pub fn half(frames: usize, random: &mut Random) -> Vec<bool> {
    (0..frames).map(|_| random.one_in(2)).collect()
}

/// Four in a row, anywhere.
pub fn burst(frames: usize, random: &mut Random) -> Vec<bool> {
    let first = random.below(frames - 3);
    let burst = first..first + 4;
    (0..frames).map(|k| burst.contains(&k)).collect()
}

/// The last four.
pub fn last_burst(frames: usize, _: &mut Random) -> Vec<bool> {
    (0..frames).map(|k| k + 4 >= frames).collect()
}

impl Input {
    /// ns per bit of a locked line with one frame in so many faulty, at random,
    /// but for those that would lose lock. One in two makes 31 in 100.
    pub fn keeping_lock(&self, one_in: usize) -> Compared<5> {
        let faulty = keeping_lock(PERIOD, one_in, &mut Random::new(505));
        let mut line = self.line.clone();
        spoil(&mut line, &faulty);
        let (costs, fed, _) = costs(self.locked().0, &line);
        let gaps = faulty.iter().filter(|faulty| **faulty).count();
        let receiver = fed.receiver;
        assert_eq!((receiver.mode, receiver.losses), (LOCKED, 0));
        assert_eq!((fed.slots, receiver.gaps), (PERIOD, gaps as u64));
        costs
    }

    /// ns per bit of stretches of so many frames: samples, some of their frames
    /// faulty, then a new sequence. Each stretch loses lock once.
    pub fn losing_lock(&self, stretch: usize, faults: Faults) -> Compared<5> {
        let mut random = Random::new(506);
        let mut sender = self.past_sequence().0;
        let (mut line, stretches) = (Vec::new(), PERIOD / stretch);
        let samples = self.samples.chunks_exact(stretch - SEQUENCE);
        for samples in samples.take(stretches) {
            let mut sent = vec![0; 2 * stretch];
            let (frames, sequence) = sent.split_at_mut(2 * samples.len());
            sender = Direct::send(sender, samples, frames).sender;
            Direct::sync(&mut sender);
            sender = Direct::send(sender, &[], sequence).sender;
            spoil(frames, &faults(samples.len(), &mut random));
            line.extend(sent);
        }
        let (costs, fed, _) = costs(self.locked().0, &line);
        let receiver = fed.receiver;
        assert_eq!((receiver.mode, receiver.losses), (LOCKED, stretches as u64));
        costs
    }
}
