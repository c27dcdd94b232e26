//! The archive's four calls that take the bytes of a strip, on bytes that are no
//! strip or only begin as one, against the slow version. Numbers of calls are
//! given with each part.

use owsopel_tests::archive::Archive;
use owsopel_tests::comparison::Comparison as Compared;
use owsopel_tests::lists::{gap_lists, pattern_list, random_list, runs_list, RUNS};
use owsopel_tests::reference::strip::{
    bits_of_bytes, bytes_of_bits, header, number, run_bits, Form,
};
use owsopel_tests::reference::strip_reading::check;
use owsopel_tests::strip_trials::{count_told, in_both, made_of_runs, take_bytes};

type Comparison = Compared<Archive>;

/// Lists of up to 9 items with every pattern up to 5, and some with long runs.
fn short_lists(comparison: &mut Comparison) -> Vec<Vec<u16>> {
    let mut lists = Vec::new();
    for length in 0..=5 {
        for pattern in 0..1 << length {
            lists.push(pattern_list(pattern, length, &mut comparison.random));
        }
    }
    for _ in 0..40 {
        let length = comparison.random.below(10);
        lists.push(random_list(length, &mut comparison.random));
        let length = comparison.random.below(600);
        lists.push(runs_list(length, 300, &mut comparison.random));
    }
    lists
}

/// Every cut of short strips in both forms, each in 13 calls.
#[test]
fn every_cut() {
    let mut comparison = Comparison::new(611);
    for items in short_lists(&mut comparison) {
        for bytes in in_both(comparison.random.byte(), &items) {
            for end in 0..=bytes.len() {
                take_bytes(&mut comparison, &bytes[..end]);
            }
        }
    }
    comparison.end("every cut", 55_000, &[0, 8, 9, 11, 12]);
}

/// Every bit of the first 20 bytes of short strips flipped, in both forms, alone
/// and before 3 bytes of any value, each in 13 calls.
#[test]
fn every_flipped_bit() {
    let mut comparison = Comparison::new(612);
    for items in short_lists(&mut comparison) {
        for bytes in in_both(comparison.random.byte(), &items) {
            for place in 0..8 * bytes.len().min(20) {
                let mut flipped = bytes.clone();
                flipped[place / 8] ^= 0x80 >> (place % 8);
                take_bytes(&mut comparison, &flipped);
                flipped.extend(comparison.random.bytes(3));
                take_bytes(&mut comparison, &flipped);
            }
        }
    }
    let answers = [0, 8, 10, 11, 12, 13, 20, 21];
    comparison.end("every flipped bit", 400_000, &answers);
}

/// Every first two bytes, before six kinds of bytes: none, a lane alone, zeros,
/// ones, runs of 256, and any. A buffer of 5 bytes is too short for some.
#[test]
fn every_first_two_bytes() {
    let mut comparison = Comparison::new(613);
    // 16 times 0 and eight ones.
    let runs = [0x7F, 0xBF, 0xDF, 0xEF, 0xF7, 0xFB, 0xFD, 0xFE, 0xFF];
    let runs = [&[9], &runs[..], &runs].concat();
    let zeros = [&[9], &[0; 32][..]].concat();
    for first in 0..=u16::MAX {
        let any = comparison.random.bytes(7);
        for rest in [&[][..], &[9], &zeros, &[9, 0xFF, 0xFF], &runs, &any] {
            let bytes = [&first.to_be_bytes(), rest].concat();
            let room = count_told(&bytes).min(250);
            comparison.read(&bytes, room);
            comparison.check(&bytes);
            comparison.shorten(&bytes, 30);
            comparison.expand(&bytes, 5);
        }
    }
    let answers = [0, 8, 9, 10, 11, 12, 13, 20, 21];
    comparison.end("every first two bytes", 1_572_864, &answers);
}

/// Bytes that start with 111: 20 000 of each length 3 to 12 with counts up to 20,
/// each in 13 calls for one in four of them and in 3 for the others.
#[test]
fn random_bytes_in_form_two() {
    let mut comparison = Comparison::new(614);
    for length in 3..=12 {
        for index in 0..20_000 {
            let mut bytes = comparison.random.bytes(length);
            bytes[0] = 0xE0;
            bytes[1] = comparison.random.below(21) as u8;
            // Few ones make short runs likely.
            if index % 2 == 0 {
                bytes[3..].iter_mut().for_each(|byte| *byte &= 0x90);
            }
            if index % 8 < 2 {
                take_bytes(&mut comparison, &bytes);
                continue;
            }
            comparison.check(&bytes);
            comparison.read(&bytes, 20);
            comparison.expand(&bytes, 60);
        }
    }
    let answers = [0, 8, 11, 12, 13, 21];
    comparison.end("random bytes in form two", 1_100_000, &answers);
}

/// Whether the items of form two run past the last byte, the rules on runs left
/// aside.
fn run_past_the_end(bytes: &[u8]) -> bool {
    let list = bits_of_bytes(bytes);
    let (mut place, mut items) = (24, 0);
    while items < count_told(bytes) {
        let width = if list.get(place) == Some(&true) {
            15
        } else {
            9
        };
        let Some(piece) = list.get(place..place + width) else {
            return true;
        };
        items += if width == 9 {
            number(piece) as usize + 1
        } else {
            1
        };
        place += width;
    }
    false
}

/// 60 000 sequences of up to 8 samples and runs of any kind behind a count of any
/// kind, some cut and some spoiled, and 3 000 of up to 40; each in 13 calls. Among
/// them at least 1 000 of each: a run that breaks a rule before items past the
/// last byte, and a run not whole that would break a rule.
#[test]
fn sequences_of_runs() {
    let mut comparison = Comparison::new(615);
    let (mut rule_first, mut end_first) = (0, 0);
    for index in 0..63_000 {
        let most = if index < 60_000 { 8 } else { 40 };
        let bytes = made_of_runs(most, &mut comparison.random);
        take_bytes(&mut comparison, &bytes);
        let refusal = check(&bytes).err();
        let with_more = check(&[&bytes[..], &[0; 2]].concat()).err();
        rule_first += usize::from(refusal == Some(21) && run_past_the_end(&bytes));
        end_first += usize::from(refusal == Some(12) && with_more == Some(21));
    }
    let answers = [0, 8, 9, 10, 11, 12, 13, 21];
    comparison.end("sequences of runs", 819_000, &answers);
    println!("21 before 12: {rule_first} times; 12 before 21: {end_first} times");
    assert!(rule_first >= 1_000 && end_first >= 1_000);
}

/// Every two runs, behind as many items as they have, one less and one more; read
/// and checked whole, and checked without the last byte.
#[test]
fn every_two_runs() {
    let mut comparison = Comparison::new(617);
    for one in 1..=256 {
        for other in 1..=256 {
            let runs = [run_bits(one), run_bits(other), vec![false; 6]].concat();
            for count in one + other - 1..=one + other + 1 {
                let head = header(Form::Two, count as u32, other as u8);
                let bytes = bytes_of_bits(&[&head[..], &runs].concat());
                comparison.read(&bytes, count);
                comparison.check(&bytes);
                comparison.check(&bytes[..5]);
            }
        }
    }
    comparison.end("every two runs", 589_824, &[0, 12, 21]);
}

/// Every two bytes of items in form two, behind seven counts; read, checked and
/// converted to form one.
#[test]
fn every_two_bytes_of_items() {
    let mut comparison = Comparison::new(618);
    for count in [0_u16, 1, 2, 9, 255, 256, 257] {
        let [high, low] = (0xE000 | count).to_be_bytes();
        for body in 0..=u16::MAX {
            let [first, second] = body.to_be_bytes();
            let bytes = [high, low, 0x3C, first, second];
            comparison.read(&bytes, usize::from(count));
            comparison.check(&bytes);
            comparison.expand(&bytes, 40);
        }
    }
    let answers = [0, 12, 13, 21];
    comparison.end("every two bytes of items", 1_376_256, &answers);
}

/// Numbers of gaps round the longest runs and round 4096, alone and with samples:
/// in form two cut after every byte of the last 40, and every bit of the first 4
/// and the last 20 bytes flipped; each in 13 calls.
#[test]
fn long_runs() {
    let mut comparison = Comparison::new(616);
    for gaps in RUNS {
        for items in gap_lists(gaps, &mut comparison.random) {
            let [_, bytes] = in_both(comparison.random.byte(), &items);
            let whole = bytes.len();
            for end in whole.saturating_sub(40)..=whole {
                take_bytes(&mut comparison, &bytes[..end]);
            }
            for place in (0..8 * whole).filter(|k| *k < 32 || *k + 160 >= 8 * whole) {
                let mut flipped = bytes.clone();
                flipped[place / 8] ^= 0x80 >> (place % 8);
                take_bytes(&mut comparison, &flipped);
            }
        }
    }
    let answers = [0, 8, 9, 10, 11, 12, 13, 20, 21];
    comparison.end("long runs spoiled", 50_000, &answers);
}
