//! What is done to a line between sender and receiver: bits before and after
//! it, flipped, lost and added ones, and bursts of touched frames.

use std::ops::Range;

use crate::random::Random;

// ---- Bits and bytes ----

/// A line put together from parts that need not be whole bytes. "bit 0 of each
/// byte is earliest".
#[derive(Default)]
pub struct Line {
    bytes: Vec<u8>,
    /// The bits past the last whole byte, the earliest lowest.
    rest: u32,
    count: u32,
}

impl Line {
    /// Adds the lowest bits of a number, at most 8.
    pub fn bits(&mut self, number: u32, count: u32) {
        self.rest |= (number % (1 << count)) << self.count;
        self.count += count;
        if self.count >= 8 {
            self.bytes.push(self.rest as u8);
            self.rest >>= 8;
            self.count -= 8;
        }
    }

    /// Adds whole bytes.
    pub fn bytes(&mut self, bytes: &[u8]) {
        for byte in bytes {
            self.bits(u32::from(*byte), 8);
        }
    }

    /// Adds that many bits of any kind.
    pub fn noise(&mut self, count: usize, random: &mut Random) {
        for _ in 0..count / 8 {
            self.bits(random.word(), 8);
        }
        self.bits(random.word(), count as u32 % 8);
    }

    /// The bytes, after bits of any kind up to a whole one. "then 0 to 7 bits
    /// of any kind; in all whole bytes". Beside them, the number of these bits.
    pub fn end(mut self, random: &mut Random) -> (Vec<u8>, u32) {
        let after = (8 - self.count) % 8;
        self.bits(random.word(), after);
        (self.bytes, after)
    }
}

/// The bits of bytes, the earliest first.
pub fn bits_of(bytes: &[u8]) -> Vec<bool> {
    let places = |byte: &u8| -> [bool; 8] { std::array::from_fn(|k| byte >> k & 1 == 1) };
    bytes.iter().flat_map(places).collect()
}

/// The bytes of whole eights of bits, the earliest first.
pub fn bytes_of(bits: &[bool]) -> Vec<u8> {
    let byte = |eight: &[bool]| (0..8).map(|k| u8::from(eight[k]) << k).sum();
    bits.chunks_exact(8).map(byte).collect()
}

// ---- Damage ----

/// Damage to a line at places of any distance, `apart` bits on average.
#[derive(Clone, Copy, Debug)]
pub enum Damage {
    /// The line as it was sent.
    None,
    /// Single bits flipped.
    Flips { apart: usize },
    /// Single bits lost.
    Lost { apart: usize },
    /// Single bits of any kind added.
    Added { apart: usize },
    /// Stretches up to 300 bits become bits of any kind.
    Noise { apart: usize },
    /// Bursts as Q-3 allows, if the line starts at a frame's start.
    Bursts { apart: usize },
    /// Bursts closer than that, of which nothing is promised.
    CloseBursts { apart: usize },
}

impl Damage {
    /// A line with this damage.
    pub fn done_to(self, line: &[u8], random: &mut Random) -> Vec<bool> {
        match self {
            Damage::None => bits_of(line),
            Damage::Bursts { apart } => with_bursts(line, BETWEEN, apart, random),
            Damage::CloseBursts { apart } => {
                with_bursts(line, random.below(BETWEEN), apart, random)
            }
            Damage::Flips { apart }
            | Damage::Lost { apart }
            | Damage::Added { apart }
            | Damage::Noise { apart } => self.at_places(&bits_of(line), apart, random),
        }
    }

    /// The damage done at places `apart` bits apart on average.
    fn at_places(self, line: &[bool], apart: usize, random: &mut Random) -> Vec<bool> {
        let mut done = Vec::with_capacity(line.len() + line.len() / apart + 1);
        let mut rest = line;
        loop {
            let whole = random.below(2 * apart);
            if whole >= rest.len() {
                done.extend_from_slice(rest);
                return done;
            }
            done.extend_from_slice(&rest[..whole]);
            rest = &rest[whole..];
            match self {
                Damage::Lost { .. } => rest = &rest[1..],
                Damage::Added { .. } => done.push(random.one_in(2)),
                Damage::Noise { .. } => {
                    let length = random.below(301).min(rest.len());
                    done.extend((0..length).map(|_| random.one_in(2)));
                    rest = &rest[length..];
                }
                _ => {
                    done.push(!rest[0]);
                    rest = &rest[1..];
                }
            }
        }
    }
}

/// "at least five untouched frames part any two bursts": with fewer, nothing is
/// promised.
pub const BETWEEN: usize = 5;

/// Bursts among so many frames: "a longest unbroken run of touched frames", at
/// most two, with `between` untouched frames between two, or up to twice `apart`
/// more. Where `between` is 0, some join.
pub fn spaced_bursts(
    frames: usize,
    between: usize,
    apart: usize,
    random: &mut Random,
) -> Vec<Range<usize>> {
    let mut bursts = Vec::new();
    let mut first = random.below(2 * apart);
    while first < frames {
        let end = (first + 1 + random.below(2)).min(frames);
        bursts.push(first..end);
        first = end + between;
        // Often as close as allowed.
        if !random.one_in(3) {
            first += random.below(2 * apart);
        }
    }
    bursts
}

/// The bits of a line with such bursts.
fn with_bursts(line: &[u8], between: usize, apart: usize, random: &mut Random) -> Vec<bool> {
    let mut touched = line.to_vec();
    let bursts = spaced_bursts(line.len() / 2, between, apart, random);
    for frame in bursts.into_iter().flatten() {
        touch(&mut touched[2 * frame..2 * frame + 2], random);
    }
    bits_of(&touched)
}

/// Flips at least one of the bits of a frame: any one, the clock bit, the
/// disparity bit, both, all, or any.
pub fn touch(frame: &mut [u8], random: &mut Random) {
    let flips: u16 = match random.below(8) {
        0 | 1 => 1 << random.below(16),
        2 => 0x4000,
        3 => 0x8000,
        4 => 0xC000,
        5 => 0xFFFF,
        _ => 1 + random.below(0xFFFF) as u16,
    };
    frame[0] ^= flips as u8;
    frame[1] ^= (flips >> 8) as u8;
}
