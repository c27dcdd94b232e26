//! The archive's strips in both forms against the slow version: written, read
//! and checked. Numbers of calls are given with each part.

use owsopel_tests::answers::Strips;
use owsopel_tests::archive::Archive;
use owsopel_tests::comparison::Comparison as Compared;
use owsopel_tests::lists::{
    fixed_lists, gap_lists, pattern_list, random_list, runs_list, spoiled, EDGES, NO_ITEMS, RUNS,
};
use owsopel_tests::reference::strip::{short_strip, strip_in, FORMS, GAP};
use owsopel_tests::strip_trials::{in_both, write_in_both};

type Comparison = Compared<Archive>;

/// Writes the items in both forms, and reads and checks both strips: whole, and
/// before other bytes, with as many slots as items and with one less or more.
fn write_and_read(comparison: &mut Comparison, lane: u8, items: &[u16]) {
    write_in_both(comparison, lane, items);
    let slots = items.len();
    for bytes in in_both(lane, items) {
        let after = comparison.random.bytes(2);
        let followed = [&bytes[..], &after].concat();
        comparison.check(&bytes);
        comparison.check(&followed);
        comparison.read(&bytes, slots);
        comparison.read(&followed, slots + 1);
        comparison.read(&bytes, slots.saturating_sub(1));
    }
}

/// Every pattern of gaps and samples in lists of 0 to 12 items, each in 18 calls.
#[test]
fn every_pattern_of_gaps() {
    let mut comparison = Comparison::new(601);
    for length in 0..=12 {
        for pattern in 0..1 << length {
            let items = pattern_list(pattern, length, &mut comparison.random);
            let lane = comparison.random.byte();
            write_and_read(&mut comparison, lane, &items);
        }
    }
    comparison.end("every pattern of gaps", 18 * 8191, &[0, 8, 11]);
}

/// Lengths 0 to 40: 59 lists each, in form two, in buffers of every size from 0
/// to 3 bytes past the strip; 3 spoiled copies of each, in 4 sizes; and both
/// forms in 18 calls.
#[test]
fn short_lists() {
    let mut comparison = Comparison::new(602);
    for length in 0..=40 {
        let mut lists = fixed_lists(length);
        for _ in 0..25 {
            lists.push(random_list(length, &mut comparison.random));
            lists.push(runs_list(length, length, &mut comparison.random));
        }
        for items in lists {
            let lane = comparison.random.byte();
            write_and_read(&mut comparison, lane, &items);
            let exact = short_strip(lane, &items).len();
            for room in 0..=exact + 3 {
                comparison.write_short(lane, &items, room);
            }
            for bad in spoiled(&items, &mut comparison.random) {
                for room in [0, exact - 1, exact, exact + 3] {
                    comparison.write_short(lane, &bad, room);
                }
            }
        }
    }
    comparison.end("short lists in both forms", 130_000, &[0, 7, 8, 11]);
}

/// Every 16-bit number as the only item and between a gap and a sample, in a
/// buffer of form two's length and in one a byte shorter.
#[test]
fn every_number() {
    let mut comparison = Comparison::new(603);
    for number in 0..=u16::MAX {
        let lane = comparison.random.byte();
        for (before, after) in [(&[][..], &[][..]), (&[GAP], &[0x1555])] {
            let items = [before, &[number], after].concat();
            let exact = short_strip(lane, &[before, &[number.min(GAP)], after].concat()).len();
            comparison.write_short(lane, &items, exact);
            comparison.write_short(lane, &items, exact - 1);
        }
    }
    comparison.end("every number in form two", 262_144, &[0, 7, 8]);
}

/// Each lane with 30 lists of up to 12 items, each in 18 calls.
#[test]
fn every_lane() {
    let mut comparison = Comparison::new(604);
    for lane in 0..=u8::MAX {
        for _ in 0..30 {
            let length = comparison.random.below(13);
            let items = random_list(length, &mut comparison.random);
            write_and_read(&mut comparison, lane, &items);
        }
    }
    comparison.end("every lane in both forms", 18 * 7680, &[0, 8, 11]);
}

/// 1 to 600 gaps alone and behind a sample, and the numbers of gaps round the
/// longest runs and round 4096, alone and before, after and between samples; each
/// in 18 calls, and with spoiled copies in form two.
#[test]
fn long_runs() {
    let mut comparison = Comparison::new(605);
    for gaps in 1..=600 {
        write_and_read(&mut comparison, gaps as u8, &vec![GAP; gaps]);
        let items = [vec![77], vec![GAP; gaps]].concat();
        write_and_read(&mut comparison, gaps as u8, &items);
    }
    for gaps in RUNS {
        for items in gap_lists(gaps, &mut comparison.random) {
            let lane = comparison.random.byte();
            write_and_read(&mut comparison, lane, &items);
            let exact = short_strip(lane, &items).len();
            for bad in spoiled(&items, &mut comparison.random) {
                comparison.write_short(lane, &bad, exact);
                comparison.write_short(lane, &bad, 0);
            }
        }
    }
    comparison.end("long runs", 18 * 1240, &[0, 7, 8, 11]);
}

/// Books of up to 30 strips of either form, read by the bytes used from strip to
/// strip, and checked.
#[test]
fn books_of_both_forms() {
    let mut comparison = Comparison::new(607);
    for _ in 0..500 {
        let (mut book, mut lists) = (Vec::new(), Vec::new());
        for _ in 0..comparison.random.below(31) {
            let (length, lane) = (comparison.random.below(40), comparison.random.byte());
            let items = runs_list(length, 20, &mut comparison.random);
            let form = comparison.random.pick(&FORMS);
            book.extend(strip_in(form, lane, &items));
            lists.push((form, lane, items));
        }
        let mut rest = &book[..];
        for (form, lane, items) in lists {
            comparison.read(rest, items.len());
            comparison.check(rest);
            let reading = Archive::check_strip(rest);
            assert_eq!((reading.form, reading.lane), (form.number(), lane));
            rest = &rest[reading.used..];
        }
        assert!(rest.is_empty());
    }
    comparison.end("books of both forms", 14_000, &[0]);
}

/// Lengths 4095, 4096 and 4097: 12 lists each, of which 3 have long runs, in both
/// forms and with spoiled copies; those a strip can have are read, also before so
/// many bytes, and into so many slots, that a number of 16 bits does not hold
/// them. Then lengths whose lowest 13 or 16 bits are a small number.
#[test]
fn long_lists() {
    let mut comparison = Comparison::new(606);
    for length in [4095, 4096, 4097] {
        let mut lists = fixed_lists(length);
        for longest in [40, 300, 1200] {
            lists.push(runs_list(length, longest, &mut comparison.random));
        }
        for items in lists {
            let lane = comparison.random.byte();
            if length > 4096 {
                write_in_both(&mut comparison, lane, &items);
            } else {
                write_and_read(&mut comparison, lane, &items);
                read_beyond_16_bits(&mut comparison, &short_strip(lane, &items));
            }
            for bad in spoiled(&items, &mut comparison.random) {
                write_in_both(&mut comparison, lane, &bad);
            }
        }
    }
    for length in [8191, 8192, 8193, 65536, 65539] {
        for item in EDGES.into_iter().chain(NO_ITEMS) {
            for room in [0, 3, 21, 65536] {
                comparison.write_short(9, &vec![item; length], room);
            }
        }
    }
    comparison.end("long lists in both forms", 1_700, &[0, 6, 7, 8, 11]);
}

fn read_beyond_16_bits(comparison: &mut Comparison, bytes: &[u8]) {
    for whole in [65_535, 65_536, 65_538] {
        let after = comparison.random.bytes(whole - bytes.len());
        let followed = [bytes, &after].concat();
        comparison.read(&followed, 4096);
        comparison.check(&followed);
        comparison.expand(&followed, whole);
        comparison.read(bytes, whole);
    }
}
