//! The parts of the sender's and the receiver's record with their ranges, as
//! tables, and values in and out of a range. The tables are written from
//! document 01 and Q-3, Q-5 and Q-7 of document 02 by themselves; the slow
//! version is not asked.

use crate::lane_records::{all_results, ALIGNMENTS, MODES};
use crate::random::Random;
use crate::records::{Receiver, Sender, FIRST, FLASH, HUNT, LOCKED, PROVE};

/// Ranges with both ends included, in rising order.
pub type Ranges = Vec<(i64, i64)>;

/// A part of a record: its name, the smallest and the largest number its type
/// has, its ranges, and how it is set.
pub struct Part<R> {
    pub name: &'static str,
    pub type_range: (i64, i64),
    pub ranges: Ranges,
    pub set: fn(&mut R, i64),
}

/// The numbers of a part's type.
const WORD: (i64, i64) = (0, u32::MAX as i64);
const SIGNED: (i64, i64) = (i32::MIN as i64, i32::MAX as i64);

const STATES: (i64, i64) = (1, 0x1FFFF);
const NONE: (i64, i64) = (0, 0);

fn part<R>(name: &'static str, ranges: &[(i64, i64)], set: fn(&mut R, i64)) -> Part<R> {
    Part {
        name,
        type_range: WORD,
        ranges: ranges.to_vec(),
        set,
    }
}

/// "A seed is permitted unless it is 0, above 0x1FFFF, or has the word
/// 0x00FF": the numbers between those with that word.
fn seeds() -> Ranges {
    let mut ranges = Vec::new();
    let mut first = 1;
    for high in 0..8 {
        let refused = 0x4000 * high + 0xFF;
        ranges.push((first, refused - 1));
        first = refused + 1;
    }
    ranges.push((first, 0x1FFFF));
    ranges
}

/// Eight results, "one with four or more of them faulty is refused".
fn results() -> Ranges {
    let admitted = all_results().into_iter().map(i64::from);
    admitted.map(|results| (results, results)).collect()
}

/// "any even number of them from 12 to 32", of these the ones with which a
/// sender gets to the position.
fn alignments(position: i64) -> Ranges {
    let permitted = ALIGNMENTS.into_iter().map(i64::from);
    let reaching = permitted.filter(|alignment| position <= alignment + 32);
    reaching.map(|alignment| (alignment, alignment)).collect()
}

/// A part of signed numbers.
fn signed<R>(name: &'static str, range: (i64, i64), set: fn(&mut R, i64)) -> Part<R> {
    let part = part(name, &[range], set);
    Part {
        type_range: SIGNED,
        ..part
    }
}

/// The parts of the sender's record. The ranges of `position` and `alignment`
/// go by each other.
pub fn sender_parts(record: &Sender) -> Vec<Part<Sender>> {
    let positions = (0, i64::from(record.alignment) + 32);
    let alignments = alignments(record.position.into());
    vec![
        part("seed", &seeds(), |s, v| s.seed = v as u32),
        part("state", &[STATES], |s, v| s.state = v as u32),
        part("clock", &[(0, 1)], |s, v| s.clock = v as u32),
        signed("r", (-16, 16), |s, v| s.r = v as i32),
        part("position", &[positions], |s, v| s.position = v as u32),
        part("alignment", &alignments, |s, v| s.alignment = v as u32),
    ]
}

/// The parts of a receiver's record in its mode, the totals left out, which
/// are free. The ranges of `bits` and `count` go by each other; of the sums, "a
/// record may hold any three such numbers".
pub fn receiver_parts(record: &Receiver) -> Vec<Part<Receiver>> {
    let mode = record.mode;
    let most = if mode == HUNT { 32 } else { 15 };
    // The places up to the highest 1 must be held.
    let least = i64::from(32 - record.bits.leading_zeros());
    let held = (0, (1_i64 << record.count) - 1);
    let or_none = |modes: &[u32], range: (i64, i64)| {
        if modes.contains(&mode) {
            vec![range]
        } else {
            vec![NONE]
        }
    };
    let frames = match mode {
        FLASH => vec![(0x00FF, 0x00FF), (0xFF00, 0xFF00)],
        _ => vec![NONE],
    };
    let word = or_none(&[FIRST], (0, 16383));
    let read = or_none(&[PROVE], (2, 31));
    let results = match mode {
        LOCKED => results(),
        _ => vec![NONE],
    };
    let state = or_none(&[PROVE, LOCKED], STATES);
    let clock = or_none(&[FIRST, PROVE, LOCKED], (0, 1));
    vec![
        part("mode", &modes_of(record), |r, v| r.mode = v as u32),
        part("bits", &[held], |r: &mut Receiver, v| r.bits = v as u32),
        part("count", &[(least, most)], |r, v| r.count = v as u32),
        part("frame", &frames, |r, v| r.frame = v as u32),
        part("word", &word, |r, v| r.word = v as u32),
        part("read", &read, |r, v| r.read = v as u32),
        part("results", &results, |r, v| r.results = v as u32),
        part("state", &state, |r, v| r.state = v as u32),
        part("clock", &clock, |r, v| r.clock = v as u32),
        signed("sum", SIGNED, |r, v| r.sum = v as i32),
        signed("lowest", SIGNED, |r, v| r.lowest = v as i32),
        signed("highest", SIGNED, |r, v| r.highest = v as i32),
    ]
}

/// The modes that a record's other parts fit.
fn modes_of(record: &Receiver) -> Ranges {
    let Receiver { count, frame, .. } = *record;
    let fits = |mode: &u32| match *mode {
        HUNT => [frame, record.word, record.read, record.results] == [0; 4] && no_last(record),
        FLASH => {
            let others = [record.word, record.read, record.results];
            (frame == 0x00FF || frame == 0xFF00) && others == [0; 3] && no_last(record)
        }
        FIRST => [frame, record.read, record.results, record.state] == [0; 4],
        PROVE => [frame, record.word, record.results] == [0; 3] && record.read >= 2,
        _ => [frame, record.word, record.read] == [0; 3],
    };
    let holds = |mode: &u32| *mode == HUNT || count <= 15;
    let stated = |mode: &u32| ![PROVE, LOCKED].contains(mode) || record.state >= 1;
    let all = |mode: &u32| fits(mode) && holds(mode) && stated(mode);
    let modes = MODES.into_iter().filter(all);
    modes
        .map(|mode| (i64::from(mode), i64::from(mode)))
        .collect()
}

/// Whether the record has neither a state nor a clock bit.
fn no_last(record: &Receiver) -> bool {
    record.state == 0 && record.clock == 0
}

impl<R> Part<R> {
    fn is_in(&self, value: i64) -> bool {
        self.ranges
            .iter()
            .any(|(first, last)| (*first..=*last).contains(&value))
    }

    /// The ends of each range, and some values within.
    pub fn values_in(&self, random: &mut Random) -> Vec<i64> {
        let mut values = Vec::new();
        for (first, last) in &self.ranges {
            values.extend([*first, *last, (first + last) / 2]);
            values.push(first + random.below((last - first + 1) as usize) as i64);
        }
        values
    }

    /// Values of the part's type out of its ranges: just outside, the type's
    /// ends, a single bit, a value in range with a higher bit added (which a
    /// cut to fewer bits would let pass), and any.
    pub fn values_out(&self, random: &mut Random) -> Vec<i64> {
        let mut values = vec![self.type_range.0, self.type_range.1];
        values.extend((0..32).map(|k| 1 << k));
        values.extend((0..32).map(|k| (1 << k) - 1));
        values.extend((0..=31).map(|k| -(1 << k)));
        for (first, last) in &self.ranges {
            values.extend([first - 2, first - 1, last + 1, last + 2]);
            for k in 3..32 {
                values.extend([first + (1 << k), last + (1 << k), last - (1 << k)]);
            }
        }
        for _ in 0..20 {
            values.push(i64::from(random.word()));
            values.push(i64::from(random.word() as i32));
            values.push(i64::from(random.word() % 0x40000));
            values.push(random.below(200) as i64 - 100);
        }
        let (least, most) = self.type_range;
        values.retain(|value| (least..=most).contains(value) && !self.is_in(*value));
        values
    }
}
