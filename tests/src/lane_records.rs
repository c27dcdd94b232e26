//! Admitted records of the sender and the receiver, of any kind.

use crate::random::Random;
use crate::records::{Receiver, Sender, FIRST, FLASH, HUNT, LOCKED, PROVE};

/// The receiver's modes.
pub const MODES: [u32; 5] = [HUNT, FLASH, FIRST, PROVE, LOCKED];

/// The pattern's 32 bits, the earliest lowest: 0xFF00 and then 0x00FF, and the
/// other order.
pub const PATTERNS: [u32; 2] = [0x00FF_FF00, 0xFF00_00FF];

/// The numbers of alignment frames that are permitted: "any even number of them
/// from 12 to 32".
pub const ALIGNMENTS: [u32; 11] = [12, 14, 16, 18, 20, 22, 24, 26, 28, 30, 32];

/// The frames of a sequence with that number of alignment frames; the position
/// stays there.
pub const fn sequence(alignment: u32) -> u32 {
    alignment + 32
}

/// The bytes of such a sequence.
pub const fn sequence_bytes(alignment: u32) -> usize {
    2 * sequence(alignment) as usize
}

/// Numbers of alignment frames that are not permitted: all up to 70, single
/// bits, permitted numbers with a higher bit added (which a cut to fewer bits
/// would let pass), and the largest.
pub fn wrong_alignments() -> Vec<u32> {
    let mut numbers: Vec<u32> = (0..=70).chain([u32::MAX - 1, u32::MAX]).collect();
    for bit in (5..32).map(|k| 1 << k) {
        numbers.push(bit);
        numbers.extend(ALIGNMENTS.map(|alignment| alignment + bit));
    }
    numbers.retain(|number| !ALIGNMENTS.contains(number));
    numbers
}

/// States that stand out: the ends of the range, words of zeros and of ones,
/// and the word that no seed has.
pub const STATES: [u32; 6] = [1, 0x1FFFF, 0x04000, 0x1C000, 0x03FFF, 0x100FF];

/// A state of any kind, often one that stands out.
pub fn state(random: &mut Random) -> u32 {
    match random.one_in(4) {
        true => random.pick(&STATES),
        false => 1 + random.below(0x1FFFF) as u32,
    }
}

/// The results admitted: of 0 to 255 those with at most three ones.
pub fn all_results() -> Vec<u32> {
    let is_admitted = |results: &u32| results.count_ones() <= 3;
    (0..256).filter(is_admitted).collect()
}

/// A permitted seed of any kind.
pub fn seed(random: &mut Random) -> u32 {
    loop {
        let seed = state(random);
        if seed % 0x4000 != 0x00FF {
            return seed;
        }
    }
}

/// An admitted sender of any kind.
pub fn sender(random: &mut Random) -> Sender {
    let alignment = random.pick(&ALIGNMENTS);
    sender_with(alignment, random)
}

/// An admitted sender with that number of alignment frames. Its position is
/// often one where another kind of frame begins, or next to it.
pub fn sender_with(alignment: u32, random: &mut Random) -> Sender {
    let end = sequence(alignment);
    let edges = [0, 1, alignment - 1, alignment, alignment + 1, end - 1, end];
    Sender {
        seed: seed(random),
        state: state(random),
        clock: random.below(2) as u32,
        r: random.below(33) as i32 - 16,
        position: match random.one_in(3) {
            true => random.pick(&edges),
            false => random.below(end as usize + 1) as u32,
        },
        alignment,
    }
}

/// A total: any number, at times one near its ends.
fn total(random: &mut Random) -> u64 {
    match random.below(4) {
        0 => random.below(3) as u64,
        1 => u64::MAX,
        2 => u64::MAX - random.below(40) as u64,
        _ => random.number(),
    }
}

/// A sum: any number, often one of the limits of 32 signed bits, one so near
/// that a frame or two get there, or a small one.
fn sum(random: &mut Random) -> i32 {
    let near = random.below(17) as i32;
    match random.below(8) {
        0 => 0,
        1 => random.pick(&[i32::MIN, i32::MAX]),
        2 => i32::MIN + near,
        3 => i32::MAX - near,
        4 | 5 => random.below(65) as i32 - 32,
        _ => random.word() as i32,
    }
}

/// Sums of any kind: "a record may hold any three such numbers".
pub fn sums(random: &mut Random) -> [i32; 3] {
    [(); 3].map(|()| sum(random))
}

/// Bits that Hunt holds, and their number: any, the pattern, all of it but the
/// latest bit with any bit before or with none, any part of it.
fn hunted(random: &mut Random) -> (u32, u32) {
    let pattern = random.pick(&PATTERNS);
    match random.below(8) {
        0 => (pattern, 32),
        1 => (pattern % (1 << 31), 31),
        2 => ((pattern << 1) | random.below(2) as u32, 32),
        3 => {
            let count = random.below(32) as u32;
            (pattern % (1 << count), count)
        }
        4 => (random.word(), 32),
        _ => {
            let count = random.below(32) as u32;
            (random.word() % (1 << count), count)
        }
    }
}

/// An admitted receiver of that mode, of any kind.
pub fn receiver(mode: u32, random: &mut Random) -> Receiver {
    let count = random.below(16) as u32;
    let mut record = Receiver {
        mode,
        bits: random.word() % (1 << count),
        count,
        samples: total(random),
        gaps: total(random),
        losses: total(random),
        ..Receiver::default().with_sums(sums(random))
    };
    if mode == HUNT {
        (record.bits, record.count) = hunted(random);
    }
    if mode == FLASH {
        record.frame = random.pick(&[0xFF00, 0x00FF]);
    }
    if mode == FIRST {
        record.word = random.below(16384) as u32;
    }
    if mode == PROVE {
        record.read = 2 + random.below(30) as u32;
    }
    if mode == LOCKED {
        record.results = random.pick(&all_results());
    }
    if mode == PROVE || mode == LOCKED {
        record.state = state(random);
    }
    if mode >= FIRST {
        record.clock = random.below(2) as u32;
    }
    record
}
