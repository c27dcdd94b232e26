//! The archive's writing of strips in form one, and its reading of them and of
//! other bytes, against the slow version; `strip_forms`, `strip_spoiled` and
//! `strip_conversion` have form two and the other calls. Numbers of calls are
//! given with each part; all parts together make over a million.

use owsopel_tests::archive::Archive;
use owsopel_tests::comparison::Comparison as Compared;
use owsopel_tests::lists::{fixed_lists, random_list, spoiled, EDGES, NO_ITEMS};
use owsopel_tests::reference::strip::{strip, GAP};

type Comparison = Compared<Archive>;

/// The fewest calls of each part.
const WRITES_OF_SHORT_LISTS: u64 = 250_000;
const WRITES_OF_EVERY_NUMBER: u64 = 250_000;
const WRITES_OF_LONG_LISTS: u64 = 1_000;
const CALLS_FOR_EVERY_LANE: u64 = 50_000;
const READS_OF_SHORT_STRIPS: u64 = 220_000;
const READS_OF_FLIPPED_BITS: u64 = 100_000;
const READS_OF_EVERY_TWO_BYTES: u64 = 250_000;
const READS_OF_EVERY_COUNT: u64 = 150_000;
const READS_OF_RANDOM_BYTES: u64 = 300_000;
const READS_OF_LONG_STRIPS: u64 = 5_000;

const _: () = assert!(
    WRITES_OF_SHORT_LISTS
        + WRITES_OF_EVERY_NUMBER
        + WRITES_OF_LONG_LISTS
        + CALLS_FOR_EVERY_LANE
        + READS_OF_SHORT_STRIPS
        + READS_OF_FLIPPED_BITS
        + READS_OF_EVERY_TWO_BYTES
        + READS_OF_EVERY_COUNT
        + READS_OF_RANDOM_BYTES
        + READS_OF_LONG_STRIPS
        >= 1_000_000
);

/// The fixed lists of one length, and that many random ones.
fn lists(length: usize, more: usize, comparison: &mut Comparison) -> Vec<Vec<u16>> {
    let mut lists = fixed_lists(length);
    for _ in 0..more {
        lists.push(random_list(length, &mut comparison.random));
    }
    lists
}

/// A header of count and lane 0xC3, then the bytes given.
fn with_count(count: u16, after: &[u8]) -> Vec<u8> {
    [&count.to_be_bytes(), &[0xC3][..], after].concat()
}

/// Lengths 0 to 40: 144 lists each, in buffers of every size from 0 to 3 bytes
/// past the strip; 3 spoiled copies of each, in 4 sizes.
#[test]
fn writing_short_lists() {
    let mut comparison = Comparison::new(1);
    for length in 0..=40 {
        for items in lists(length, 135, &mut comparison) {
            let lane = comparison.random.byte();
            let exact = strip(lane, &items).len();
            for room in 0..=exact + 3 {
                comparison.write(lane, &items, room);
            }
            for bad in spoiled(&items, &mut comparison.random) {
                for room in [0, exact - 1, exact, exact + 3] {
                    comparison.write(lane, &bad, room);
                }
            }
        }
    }
    comparison.end("writing short lists", WRITES_OF_SHORT_LISTS, &[0, 7, 8]);
}

/// Every 16-bit number as the only item and behind a sample and a gap, in a
/// buffer of the strip's length and in one a byte shorter.
#[test]
fn writing_every_number() {
    let mut comparison = Comparison::new(2);
    for number in 0..=u16::MAX {
        let lane = comparison.random.byte();
        for before in [&[][..], &[0x1555, GAP]] {
            let items = [before, &[number]].concat();
            let exact = strip(lane, &[before, &[number.min(GAP)]].concat()).len();
            comparison.write(lane, &items, exact);
            comparison.write(lane, &items, exact - 1);
        }
    }
    comparison.end("writing every number", WRITES_OF_EVERY_NUMBER, &[0, 7, 8]);
}

/// Lengths 4095, 4096 and 4097: 12 lists each and 3 spoiled copies of each, in
/// 10 sizes of buffer. Then lengths whose lowest 16 bits are a small number.
#[test]
fn writing_long_lists() {
    let mut comparison = Comparison::new(3);
    for length in [4095, 4096, 4097] {
        for items in lists(length, 3, &mut comparison) {
            let exact = strip(1, &items[..length.min(4096)]).len();
            let mut tried = spoiled(&items, &mut comparison.random);
            tried.push(items);
            for items in tried {
                let lane = comparison.random.byte();
                for room in [0, 2, 3, 512, 65536, exact - 2, exact - 1] {
                    comparison.write(lane, &items, room);
                }
                for room in exact..=exact + 2 {
                    comparison.write(lane, &items, room);
                }
            }
        }
    }
    for length in [8192, 32768, 65535, 65536, 65537, 65539, 131072] {
        for item in EDGES.into_iter().chain(NO_ITEMS) {
            for room in [0, 3, 9, 20, 65536] {
                comparison.write(9, &vec![item; length], room);
            }
        }
    }
    comparison.end("writing long lists", WRITES_OF_LONG_LISTS, &[0, 6, 7, 8]);
}

/// Each lane with 50 lists of up to 12 items: written with 2 bytes to spare,
/// and read whole, with bytes after it, and with the last byte lost.
#[test]
fn every_lane() {
    let mut comparison = Comparison::new(4);
    for lane in 0..=u8::MAX {
        for _ in 0..50 {
            let length = comparison.random.below(13);
            let items = random_list(length, &mut comparison.random);
            let bytes = strip(lane, &items);
            comparison.write(lane, &items, bytes.len() + 2);
            comparison.read(&bytes, length);
            let after = comparison.random.bytes(4);
            comparison.read(&[&bytes, &after[..]].concat(), length + 1);
            comparison.read(&bytes[..bytes.len() - 1], length);
        }
    }
    comparison.end("every lane", CALLS_FOR_EVERY_LANE, &[0, 9, 12]);
}

/// Lengths 0 to 40: 25 strips each, cut after every byte and before 1, 2 and 8
/// bytes of zeros, of ones and of any value; each with 6 numbers of slots.
#[test]
fn reading_short_strips() {
    let mut comparison = Comparison::new(5);
    for length in 0..=40 {
        for items in lists(length, 16, &mut comparison) {
            let bytes = strip(comparison.random.byte(), &items);
            let mut tried: Vec<Vec<u8>> = Vec::new();
            for end in 0..=bytes.len() {
                tried.push(bytes[..end].to_vec());
            }
            for more in [1, 2, 8] {
                for after in [
                    vec![0; more],
                    vec![0xFF; more],
                    comparison.random.bytes(more),
                ] {
                    tried.push([&bytes[..], &after].concat());
                }
            }
            let less = length.saturating_sub(1);
            for bytes in tried {
                for room in [0, less, length, length + 1, length + 3, length + 20] {
                    comparison.read(&bytes, room);
                }
            }
        }
    }
    comparison.end(
        "reading short strips",
        READS_OF_SHORT_STRIPS,
        &[0, 9, 11, 12],
    );
}

/// The strips up to 12 bytes among 29 of each length 0 to 72, every one of
/// their bits flipped, alone and before 2 bytes of any value; each with 5
/// numbers of slots.
#[test]
fn reading_with_a_flipped_bit() {
    let mut comparison = Comparison::new(6);
    for length in 0..=72 {
        for items in lists(length, 20, &mut comparison) {
            let bytes = strip(comparison.random.byte(), &items);
            if bytes.len() > 12 {
                continue;
            }
            for place in 0..8 * bytes.len() {
                let mut flipped = bytes.clone();
                flipped[place / 8] ^= 0x80 >> (place % 8);
                for room in [length.saturating_sub(1), length, length + 3, 4096] {
                    comparison.read(&flipped, room);
                }
                flipped.extend(comparison.random.bytes(2));
                comparison.read(&flipped, length + 16);
            }
        }
    }
    let answers = [0, 10, 11, 12, 13, 20];
    comparison.end(
        "reading with a flipped bit",
        READS_OF_FLIPPED_BITS,
        &answers,
    );
}

/// Every two bytes of items, behind the counts 1, 2, 9 and 16.
#[test]
fn reading_every_two_bytes_of_items() {
    let mut comparison = Comparison::new(7);
    for count in [1, 2, 9, 16] {
        for body in 0..=u16::MAX {
            comparison.read(&with_count(count, &body.to_be_bytes()), usize::from(count));
        }
    }
    let answers = [0, 12, 13];
    comparison.end(
        "reading every two bytes",
        READS_OF_EVERY_TWO_BYTES,
        &answers,
    );
}

/// Every two bytes in the count's place, so every first three bits: without
/// items and without slots, with 12 slots, and before 8 bytes of zeros with 40
/// slots. The counts around 4096, and larger ones with other first bits: with few
/// and many bytes, zeros and ones, and few and many slots.
#[test]
fn reading_every_count() {
    let mut comparison = Comparison::new(8);
    for count in 0..=u16::MAX {
        comparison.read(&with_count(count, &[]), 0);
        comparison.read(&with_count(count, &[]), 12);
        comparison.read(&with_count(count, &[0; 8]), 40);
    }
    for count in [4094, 4095, 4096, 4097, 4098, 8191, 8192, 32768, 65535] {
        for after in [0, 1, 511, 512, 513, 7677, 7678, 7679, 7680, 7681] {
            for fill in [0x00, 0xFF] {
                let bytes = with_count(count, &vec![fill; after]);
                for room in [0, 40, 4094, 4095, 4096, 4097, 65535, 65537] {
                    comparison.read(&bytes, room);
                }
            }
        }
    }
    let answers = [0, 10, 11, 12, 20, 21];
    comparison.end("reading every count", READS_OF_EVERY_COUNT, &answers);
}

/// Byte strings of 0 to 64 bytes, 5000 of each length: three in four have a
/// count up to 40, and of the other bytes none, half or three in four are 0.
/// Slots from 0 to 47.
#[test]
fn reading_random_bytes() {
    let mut comparison = Comparison::new(9);
    for length in 0..=64 {
        for _ in 0..5000 {
            let mut bytes = comparison.random.bytes(length);
            let zeros = [0, 4, 6][comparison.random.below(3)];
            for byte in bytes.iter_mut().skip(3) {
                if comparison.random.below(8) < zeros {
                    *byte = 0;
                }
            }
            if length >= 2 && comparison.random.below(4) < 3 {
                bytes[0] = 0;
                bytes[1] = comparison.random.below(41) as u8;
            }
            let room = comparison.random.below(48);
            comparison.read(&bytes, room);
        }
    }
    let answers = [0, 9, 10, 11, 12, 13, 20];
    comparison.end("reading random bytes", READS_OF_RANDOM_BYTES, &answers);
}

/// Lengths 4095 and 4096: 12 strips each, cut after each of the first and the
/// last 12 bytes and after every 97th, the one of gaps alone and a random one
/// after every byte; and before bytes that bring the whole to 8191, 8192,
/// 8193, 65536 and 65538; each with a slot for each item. The whole strip: with
/// 6 numbers of slots, and with its last 16 bits flipped.
#[test]
fn reading_long_strips() {
    let mut comparison = Comparison::new(10);
    for length in [4095, 4096] {
        let lists = lists(length, 3, &mut comparison);
        for (index, items) in lists.iter().enumerate() {
            let bytes = strip(comparison.random.byte(), items);
            let ends = bytes.len() - 12;
            let step = if index == 5 || index == 11 { 1 } else { 97 };
            for end in (0..=bytes.len()).filter(|end| *end < 12 || *end >= ends || end % step == 0)
            {
                comparison.read(&bytes[..end], length);
            }
            for whole in [8191, 8192, 8193, 65536, 65538] {
                let after = comparison.random.bytes(whole - bytes.len());
                comparison.read(&[&bytes[..], &after].concat(), length);
            }
            for room in [0, length - 1, length + 1, length + 3, 65536, 65537] {
                comparison.read(&bytes, room);
            }
            for place in 0..16 {
                let mut flipped = bytes.clone();
                flipped[bytes.len() - 1 - place / 8] ^= 1 << (place % 8);
                comparison.read(&flipped, length);
            }
        }
    }
    let answers = [0, 9, 11, 12, 13];
    comparison.end("reading long strips", READS_OF_LONG_STRIPS, &answers);
}
