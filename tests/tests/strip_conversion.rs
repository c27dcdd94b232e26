//! The archive's conversion of strips: against the slow version, and on a million
//! strips by what Q-8 says of it. Numbers of calls are given with each part.

use owsopel_tests::answers::{Converted, Strips, Written};
use owsopel_tests::archive::{fail, short, Archive};
use owsopel_tests::comparison::Comparison as Compared;
use owsopel_tests::counts::Counts;
use owsopel_tests::lists::{
    fixed_lists, gap_lists, pattern_list, random_list, runs_list, EDGES, RUNS,
};
use owsopel_tests::random::Random;
use owsopel_tests::reference::strip::{Form, FORMS, GAP};
use owsopel_tests::strip_trials::{in_both, take_bytes};

type Comparison = Compared<Archive>;

/// Every pattern of gaps and samples in lists of 0 to 12 items, in both forms:
/// each in 13 calls, before bytes of any value.
#[test]
fn every_pattern_of_gaps() {
    let mut comparison = Comparison::new(621);
    for length in 0..=12 {
        for pattern in 0..1 << length {
            let items = pattern_list(pattern, length, &mut comparison.random);
            for bytes in in_both(comparison.random.byte(), &items) {
                let more = comparison.random.below(3);
                let after = comparison.random.bytes(more);
                take_bytes(&mut comparison, &[&bytes[..], &after].concat());
            }
        }
    }
    comparison.end("every pattern converted", 13 * 16_382, &[0, 8, 11]);
}

/// Lengths 0 to 40, 4095 and 4096: 20 lists each; and the numbers of gaps round
/// the longest runs and round 4096, alone and with samples. Both forms, each in
/// 13 calls.
#[test]
fn lists_of_any_length() {
    let mut comparison = Comparison::new(622);
    let mut lists = Vec::new();
    for length in (0..=40).chain([4095, 4096]) {
        lists.extend(fixed_lists(length));
        for longest in [3, 9, 12, 255, 256, 300, 600] {
            lists.push(runs_list(length, longest, &mut comparison.random));
        }
        for _ in 0..4 {
            lists.push(random_list(length, &mut comparison.random));
        }
    }
    for gaps in RUNS {
        lists.extend(gap_lists(gaps, &mut comparison.random));
    }
    for items in lists {
        for bytes in in_both(comparison.random.byte(), &items) {
            take_bytes(&mut comparison, &bytes);
        }
    }
    comparison.end("lists of any length converted", 22_000, &[0, 8, 11]);
}

/// Each number of gaps from 0 to 4096, alone: in both forms checked, read, and
/// converted to either into a buffer of the strip's length, and to form one into
/// a buffer a byte shorter.
#[test]
fn every_count() {
    let mut comparison = Comparison::new(625);
    for count in 0..=4096 {
        let both = in_both(count as u8, &vec![GAP; count]);
        for bytes in &both {
            comparison.check(bytes);
            comparison.read(bytes, count);
            comparison.expand(bytes, both[0].len());
            comparison.shorten(bytes, both[1].len());
            comparison.expand(bytes, both[0].len() - 1);
        }
    }
    comparison.end("every count converted", 40_970, &[0, 8]);
}

// ---- By what Q-8 says alone ----

/// The strip that the archive writes in that form.
fn written(form: Form, lane: u8, items: &[u16], counts: &mut Counts) -> Vec<u8> {
    let mut buf = vec![0xA5; 3 + 2 * items.len() + 8];
    let Written { refusal, bytes } = match form {
        Form::One => Archive::write_strip(lane, items, &mut buf),
        Form::Two => Archive::write_short_strip(lane, items, &mut buf),
    };
    counts.add(refusal);
    buf.truncate(bytes);
    buf
}

/// Converts the strip, before other bytes, and demands the wanted one, its bytes
/// and the given one's told, and the buffer's later bytes kept.
#[track_caller]
fn demand(to: Form, given: &[u8], wanted: &[u8], random: &mut Random, counts: &mut Counts) {
    let (after, spare) = (random.below(4), random.below(4));
    let bytes = [given, &random.bytes(after)].concat();
    let before = random.bytes(wanted.len() + spare);
    let mut buf = before.clone();
    let converted = match to {
        Form::One => Archive::expand_strip(&bytes, &mut buf),
        Form::Two => Archive::shorten_strip(&bytes, &mut buf),
    };
    counts.add(converted.refusal);
    let expected = Converted {
        refusal: 0,
        used: given.len(),
        bytes: wanted.len(),
    };
    let (strip, rest) = buf.split_at(wanted.len());
    if converted == expected && strip == wanted && *rest == before[wanted.len()..] {
        return;
    }
    fail(&format!(
        "to form {}, bytes {}: {converted:?}, buffer {}, the strip is {}",
        to.number(),
        short(&bytes),
        short(&buf),
        short(wanted)
    ));
}

/// A list for a strip: mostly short, now and then with long runs, seldom long.
fn any_list(random: &mut Random) -> Vec<u16> {
    match random.below(1000) {
        0 => {
            let length = 4096 - random.below(3);
            let longest = random.pick(&[2, 20, 300, 4096]);
            runs_list(length, longest, random)
        }
        1..40 => {
            let length = random.below(700);
            let longest = random.pick(&[2, 300, 600]);
            runs_list(length, longest, random)
        }
        40..400 => {
            let length = random.below(40);
            let longest = random.pick(&[2, 10, 40]);
            runs_list(length, longest, random)
        }
        _ => {
            let length = random.below(16);
            random_list(length, random)
        }
    }
}

/// A million strips in each form, as the archive writes them: "Old strips convert
/// to form two and back to the same bytes", and the other way round; "tells the
/// bytes used and written, carries over a strip already in the wanted form". Six
/// calls each.
#[test]
fn a_million_strips_there_and_back() {
    let (mut random, mut counts) = (Random::new(623), Counts::default());
    for _ in 0..1_000_000 {
        let (lane, items) = (random.byte(), any_list(&mut random));
        let both = FORMS.map(|form| written(form, lane, &items, &mut counts));
        for (from, to) in [(0, 1), (1, 0), (0, 0), (1, 1)] {
            demand(FORMS[to], &both[from], &both[to], &mut random, &mut counts);
        }
    }
    counts.end("a million strips there and back", 6_000_000, &[0]);
}

/// 3 000 lists, written in each form: what their strips are converted to reads as
/// the list, with the lane and the other form told. Two calls counted each.
#[test]
fn converted_strips_read_back() {
    let (mut random, mut counts) = (Random::new(624), Counts::default());
    for index in 0..3_000 {
        let items = match index % 3 {
            0 => any_list(&mut random),
            1 => vec![GAP; random.below(1200)],
            _ => vec![random.pick(&EDGES); random.below(60)],
        };
        for (form, other) in [(Form::One, Form::Two), (Form::Two, Form::One)] {
            let bytes = written(form, 77, &items, &mut counts);
            let mut buf = vec![0; 9000];
            let converted = match other {
                Form::One => Archive::expand_strip(&bytes, &mut buf),
                Form::Two => Archive::shorten_strip(&bytes, &mut buf),
            };
            let mut slots = vec![0; items.len()];
            let reading = Archive::read_strip(&buf[..converted.bytes], &mut slots);
            counts.add(reading.refusal);
            let told = (reading.lane, reading.form, reading.used);
            assert_eq!(told, (77, other.number(), converted.bytes));
            assert_eq!((reading.count as usize, &slots), (items.len(), &items));
        }
    }
    counts.end("converted strips read back", 12_000, &[0]);
}
