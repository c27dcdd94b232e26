//! Every cut of a line into pieces of up to five bytes, each fed with up to three
//! slots, through both feeding calls of the archive and against the slow version.

use std::collections::BTreeSet;

use owsopel_tests::archive::{fail, short, Archive};
use owsopel_tests::awaited::awaited_line;
use owsopel_tests::lane_comparison::LaneComparison;
use owsopel_tests::lane_records::{self, sequence_bytes, ALIGNMENTS, MODES, PATTERNS};
use owsopel_tests::lines::{bits_of, bytes_of, Damage};
use owsopel_tests::records::{Receiver, HUNT, LOCKED};
use owsopel_tests::reference::frame::number;
use owsopel_tests::trials::sent_line;

type Comparison = LaneComparison<Archive>;

/// The longest piece, and the most slots.
const LONGEST: usize = 5;
const MOST: usize = 3;

/// Feeds byte by byte with a slot each: the record before each byte and after
/// the last, and the item of each byte.
#[track_caller]
fn byte_by_byte(
    comparison: &mut Comparison,
    start: Receiver,
    line: &[u8],
) -> (Vec<Receiver>, Vec<Option<u16>>) {
    let (mut records, mut items) = (vec![start], Vec::new());
    let mut receiver = start;
    for byte in line {
        let (fed, slots) = comparison.feed(&mut receiver, &[*byte], 1);
        assert_eq!((fed.refusal, fed.bytes), (0, 1));
        records.push(receiver);
        items.push(slots.first().copied());
    }
    (records, items)
}

/// The bytes that a piece uses, "until the bytes are used or no slot is free
/// before a byte", and the items, from those of its bytes.
fn used(items: &[Option<u16>], room: usize) -> (usize, Vec<u16>) {
    let (mut bytes, mut slots) = (0, Vec::new());
    while bytes < items.len() && slots.len() < room {
        slots.extend(items[bytes]);
        bytes += 1;
    }
    (bytes, slots)
}

/// From each place of a line, feeds each piece with each number of slots. It must
/// use the bytes and give the items that those fed byte by byte say, and leave
/// the record that stands where it stops. Gives the records by their place.
///
/// This covers every list of such calls, by `ows_feed` and `ows_feed_frames` in
/// any order: what a call gives depends on the record, the bytes and the slots
/// alone. A list's first call is from the record at place 0, and each call from
/// the record of its place leaves that of the place where it stops; so each call
/// of a list is one that was tried.
#[track_caller]
fn every_cut(comparison: &mut Comparison, start: Receiver, line: &[u8]) -> Vec<Receiver> {
    let (records, items) = byte_by_byte(comparison, start, line);
    for (place, record) in records.iter().enumerate() {
        for end in place..=line.len().min(place + LONGEST) {
            for room in 0..=MOST {
                let mut receiver = *record;
                let (fed, slots) = comparison.feed(&mut receiver, &line[place..end], room);
                let (bytes, expected) = used(&items[place..end], room);
                let is_right = (fed.refusal, fed.bytes, &slots) == (0, bytes, &expected);
                if !is_right || receiver != records[place + bytes] {
                    fail(&format!(
                        "{record:?}, bytes {}, {room} slots: {fed:?}, slots {}; byte by byte \
                         {bytes} bytes, slots {}, {:?}",
                        short(&line[place..end]),
                        short(&slots),
                        short(&expected),
                        records[place + bytes],
                    ));
                }
            }
        }
    }
    records
}

// ---- Lines from a sender ----

/// What is done to the frames after a sequence.
#[derive(Clone, Copy)]
enum Kind {
    /// The clock bits of these frames are flipped.
    Faults(&'static [usize]),
    /// Frames of the sequence too are touched.
    Damage(Damage),
}

/// Sound frames; faulty ones with lock kept; four that lose it, in a row and not;
/// and other damage, also before the lock.
const KINDS: [Kind; 9] = [
    Kind::Faults(&[]),
    Kind::Faults(&[0, 3, 9, 10, 17]),
    Kind::Faults(&[6, 7, 8, 9]),
    Kind::Faults(&[16, 17, 18, 19]),
    Kind::Faults(&[1, 4, 6, 8]),
    Kind::Damage(Damage::Flips { apart: 300 }),
    Kind::Damage(Damage::Lost { apart: 500 }),
    Kind::Damage(Damage::Added { apart: 500 }),
    Kind::Damage(Damage::Noise { apart: 500 }),
];

/// The frames of samples after a sequence.
const SAMPLES: usize = 20;

/// Noise, two sequences each with samples after it, the first with damage, and
/// noise.
fn sent_bits(comparison: &mut Comparison, alignment: u32, kind: Kind) -> Vec<bool> {
    let (mut first, ..) = sent_line(comparison, alignment, SAMPLES);
    let (second, ..) = sent_line(comparison, alignment, 3);
    let random = &mut comparison.random;
    let mut bits = bits_of(&random.bytes(6));
    bits.extend(match kind {
        Kind::Faults(frames) => {
            for frame in frames {
                first[sequence_bytes(alignment) + 2 * frame + 1] ^= 0x40;
            }
            bits_of(&first)
        }
        Kind::Damage(damage) => damage.done_to(&first, random),
    });
    bits.extend(bits_of(&second));
    bits.extend(bits_of(&random.bytes(6)));
    bits
}

/// From a fresh receiver on, the line beginning at each bit of a byte. So each
/// mode is met with each number of bits held: both of a bit of a byte, as a frame
/// has two bytes.
#[test]
fn every_cut_of_sent_lines() {
    let mut comparison = Comparison::new(1101);
    let mut met = BTreeSet::new();
    for (index, kind) in KINDS.into_iter().enumerate() {
        let bits = sent_bits(&mut comparison, ALIGNMENTS[index % 2], kind);
        for offset in 0..8 {
            let start = comparison.fresh();
            let records = every_cut(&mut comparison, start, &bytes_of(&bits[offset..]));
            met.extend(records.iter().map(|record| (record.mode, record.count)));
        }
    }
    for mode in MODES {
        let most = if mode == HUNT { 32 } else { 15 };
        let missed: Vec<u32> = (0..=most).filter(|k| !met.contains(&(mode, *k))).collect();
        assert!(missed.is_empty(), "mode {mode}: never {missed:?} bits held");
    }
    comparison.end("every cut of sent lines", 0, &[0]);
}

// ---- Lines from any record ----

/// Records of each mode with each number of bits held, with each kind of line.
const ROUNDS: usize = 4;

/// From records of each mode with each number of bits held: lines on which the
/// mode goes on, in Locked with no faulty frame, with some, with many and with
/// faulty ones alone, and noise. Lock is lost with each number of bits left of
/// the byte.
#[test]
fn every_cut_from_every_mode_and_number_of_bits() {
    let mut comparison = Comparison::new(1102);
    let mut left = BTreeSet::new();
    let kinds: Vec<usize> = [0, 5, 2, 1].repeat(ROUNDS);
    for mode in MODES {
        let most = if mode == HUNT { 32 } else { 15 };
        for count in 0..=most {
            for faulty in &kinds {
                let random = &mut comparison.random;
                let record = Receiver {
                    count,
                    ..lane_records::receiver(mode, random)
                };
                let (start, line) = awaited_line(record, 14, *faulty, random);
                let noise = random.bytes(14);
                let records = every_cut(&mut comparison, start, &line);
                let is_lost = |two: &&[Receiver]| two[0].mode == LOCKED && two[1].mode == HUNT;
                left.extend(records.windows(2).filter(is_lost).map(|two| two[1].count));
                every_cut(&mut comparison, start, &noise);
            }
        }
    }
    assert!(left.into_iter().eq(0..8));
    comparison.end("every cut from every mode", 0, &[0]);
}

// ---- The alignment pair ----

/// The bits of noise before a pair, at most.
const NOISE: usize = 8;

/// An alignment pair after some bits of noise, from each of its bits on: Hunt
/// holds the latest of the bits before, up to 32. So a pair ends at each bit of a
/// byte after each number of bits held. With one of its bits flipped, it is not
/// found.
#[test]
fn every_cut_of_a_pair_from_every_bit() {
    let mut comparison = Comparison::new(1103);
    for (noise, pair) in (0..=NOISE).flat_map(|noise| PATTERNS.map(|pair| (noise, pair))) {
        for (start, is_flipped) in (0..noise + 32).flat_map(|k| [(k, false), (k, true)]) {
            let random = &mut comparison.random;
            let mut bits: Vec<bool> = (0..noise).map(|_| random.one_in(2)).collect();
            let flipped = u32::from(is_flipped) << random.below(32);
            bits.extend(bits_of(&(pair ^ flipped).to_le_bytes()));
            bits.extend((0..11).map(|_| random.one_in(2)));
            let held = &bits[start.saturating_sub(32)..start];
            let record = Receiver {
                bits: number(held),
                count: held.len() as u32,
                ..lane_records::receiver(HUNT, random)
            };
            let records = every_cut(&mut comparison, record, &bytes_of(&bits[start..]));
            let after = records[records.len() - 1];
            let frame = if is_flipped { 0 } else { pair >> 16 };
            assert_eq!(after.frame, frame, "{record:?}");
        }
    }
    comparison.end("every cut of a pair", 0, &[0]);
}
