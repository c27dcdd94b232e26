//! Rules of document 02's Q-8 on form two, tried on the slow version by itself
//! with values made by hand.

use owsopel_tests::reference::strip::{
    bits, bytes_of_bits, header, item_bits, run_bits, short_strip, strip, write_in, Form, GAP,
};
use owsopel_tests::reference::strip_reading::{check, read, Read};

/// What fills a slot before a call.
const OLD_SLOT: u16 = 0xBEEF;

/// The bytes of a strip in form two, with these bits as its items, and zero bits
/// to the byte's end.
fn made(count: u32, items: &[Vec<bool>]) -> Vec<u8> {
    let mut list = header(Form::Two, count, 7);
    list.extend(items.concat());
    while !list.len().is_multiple_of(8) {
        list.push(false);
    }
    bytes_of_bits(&list)
}

fn sample() -> Vec<bool> {
    item_bits(0x2AAA)
}

/// Reading with so many slots, and checking where these are enough, must be
/// refused with that number; no slot is written.
#[track_caller]
fn assert_refused_into(room: usize, bytes: &[u8], refusal: u8) {
    let mut slots = vec![OLD_SLOT; room];
    assert_eq!(read(bytes, &mut slots), Err(refusal), "{bytes:x?}");
    assert_eq!(slots, vec![OLD_SLOT; room], "a refusal wrote a slot");
    if refusal != 11 {
        assert_eq!(check(bytes), Err(refusal), "{bytes:x?}");
    }
}

#[track_caller]
fn assert_refused(bytes: &[u8], refusal: u8) {
    assert_refused_into(4096, bytes, refusal);
}

/// Reading must give these items, the form, and all bytes used.
#[track_caller]
fn assert_taken(bytes: &[u8], items: &[u16]) {
    let mut slots = vec![OLD_SLOT; items.len() + 1];
    let expected = Read {
        lane: bytes[2],
        count: items.len() as u16,
        form: Form::Two,
        used: bytes.len(),
    };
    assert_eq!(read(bytes, &mut slots), Ok(expected));
    assert_eq!(slots, [items, &[OLD_SLOT]].concat());
    assert_eq!(check(bytes), Ok((expected, items.to_vec())));
}

// ---- Writing ----

/// "Form two starts with bits 111, then a 13-bit count, 8-bit lane, and items".
#[test]
fn strips_by_hand() {
    let strips: [(u8, &[u16], &[u8]); 6] = [
        (5, &[1, GAP], &[0xE0, 0x02, 0x05, 0x80, 0x02, 0x00]),
        (0, &[16383], &[0xE0, 0x01, 0x00, 0xFF, 0xFE]),
        (7, &[], &[0xE0, 0x00, 0x07]),
        (255, &[GAP], &[0xE0, 0x01, 0xFF, 0x00, 0x00]),
        (255, &[GAP; 2], &[0xE0, 0x02, 0xFF, 0x00, 0x80]),
        (9, &[GAP, 0], &[0xE0, 0x02, 0x09, 0x00, 0x40, 0x00]),
    ];
    for (lane, items, bytes) in strips {
        assert_eq!(short_strip(lane, items), bytes);
        let mut buf = [0xA5; 8];
        let written = write_in(Form::Two, lane, items, &mut buf);
        assert_eq!(written, Ok(bytes.len()));
        assert_eq!(buf[..bytes.len()], *bytes);
        assert_taken(bytes, items);
    }
}

/// "0 with 8 bits giving a run of gaps, its length less 1. A run shorter than
/// 256 is not followed by another run."
#[test]
fn runs_by_length() {
    for gaps in 1..=1100 {
        let runs = [vec![256; gaps / 256], vec![gaps % 256]].concat();
        let runs: Vec<Vec<bool>> = runs.into_iter().filter(|n| *n > 0).map(run_bits).collect();
        let items = vec![GAP; gaps];
        assert_eq!(short_strip(7, &items), made(gaps as u32, &runs));
        assert_taken(&short_strip(7, &items), &items);
        let between = [vec![0x2AAA], items, vec![0x2AAA]].concat();
        let bytes = made(
            gaps as u32 + 2,
            &[&[sample()][..], &runs, &[sample()]].concat(),
        );
        assert_eq!(short_strip(7, &between), bytes);
        assert_taken(&bytes, &between);
    }
    assert_eq!(run_bits(1), bits(0, 9));
    assert_eq!(run_bits(256), bits(255, 9));
}

/// 16 runs of 256 take 144 bits, and a sample takes 15 bits in either form.
#[test]
fn counts_4095_and_4096() {
    assert_eq!(short_strip(0, &[GAP; 4096]).len(), 3 + 18);
    assert_eq!(short_strip(0, &[GAP; 4095]).len(), 3 + 18);
    assert_eq!(short_strip(0, &[16383; 4096]).len(), 3 + 7680);
    assert_eq!(short_strip(0, &[GAP; 4096])[..3], [0xF0, 0x00, 0x00]);
    assert_eq!(short_strip(0, &[GAP; 4095])[..3], [0xEF, 0xFF, 0x00]);
    for length in [4095, 4096] {
        assert_taken(&short_strip(3, &vec![GAP; length]), &vec![GAP; length]);
        assert_taken(&short_strip(3, &vec![5; length]), &vec![5; length]);
    }
    let runs = vec![run_bits(256); 16];
    assert_refused(&made(4097, &[&runs[..], &[run_bits(1)]].concat()), 10);
}

// ---- The order of refusals ----

/// "20 first three bits neither 000 nor 111, checked after 9 and before 10", so
/// also with a count above 4096, without slots, and without items.
#[test]
fn the_first_three_bits() {
    for first in 1..7_u8 {
        for (rest, low) in [
            (0, 0),
            (0, 1),
            (0x0F, 0xFF),
            (0x10, 0),
            (0x10, 1),
            (0x1F, 0xFF),
        ] {
            let bytes = [first << 5 | rest, low, 7];
            assert_refused_into(0, &bytes, 20);
            assert_refused(&bytes, 20);
            assert_refused(&[&bytes[..], &[0; 600]].concat(), 20);
            for length in 0..3 {
                assert_refused(&bytes[..length], 9);
            }
        }
    }
}

/// A count of 13 bits: 4097 to 8191 are above 4096.
#[test]
fn counts_above_4096() {
    for count in [4097_u16, 4098, 8191] {
        let [high, low] = (0xE000 | count).to_be_bytes();
        for after in [0, 1, 600] {
            let bytes = [vec![high, low, 7], vec![0; after]].concat();
            for room in [0, 4096, 4097, 8192] {
                assert_refused_into(room, &bytes, 10);
            }
        }
    }
}

/// 11 before everything that the walk finds.
#[test]
fn fewer_slots_than_the_count() {
    let cut = made(2, &[]);
    let past = made(2, &[run_bits(3)]);
    let two_runs = made(2, &[run_bits(1), run_bits(1)]);
    let padding = made(2, &[run_bits(2), vec![true; 7]]);
    for bytes in [cut, past, two_runs, padding, short_strip(7, &[1, GAP])] {
        assert_refused_into(0, &bytes, 11);
        assert_refused_into(1, &bytes, 11);
    }
}

// ---- 21, and 12 ----

/// "a run that goes past the count": by 1, by all it has, at the strip's start,
/// behind a sample and behind a run of 256.
#[test]
fn a_run_past_the_count() {
    for length in 2..=256 {
        assert_refused(&made(length as u32 - 1, &[run_bits(length)]), 21);
        assert_refused(&made(1, &[run_bits(length)]), 21);
        assert_refused(&made(length as u32, &[sample(), run_bits(length)]), 21);
        let after_256 = [run_bits(256), run_bits(length)];
        assert_refused(&made(255 + length as u32, &after_256), 21);
        assert_taken(
            &made(256 + length as u32, &after_256),
            &vec![GAP; 256 + length],
        );
    }
    let full = vec![run_bits(256); 16];
    assert_refused(&made(4095, &full), 21);
}

/// "A run shorter than 256 is not followed by another run", whatever the other
/// one's length is; a run of 256 is.
#[test]
fn a_run_behind_a_run() {
    for length in 1..=256 {
        for next in [1, 2, 255, 256] {
            let bytes = made((length + next) as u32, &[run_bits(length), run_bits(next)]);
            match length {
                256 => assert_taken(&bytes, &vec![GAP; length + next]),
                _ => assert_refused(&bytes, 21),
            }
        }
        let bytes = made(
            length as u32 + 2,
            &[run_bits(length), sample(), run_bits(1)],
        );
        let items = [vec![GAP; length], vec![0x2AAA, GAP]].concat();
        assert_taken(&bytes, &items);
    }
}

/// The walk ends with the count: a run that would stand behind the last item is
/// padding, or bytes after.
#[test]
fn what_follows_the_last_item_is_no_run() {
    let runs = [run_bits(1), run_bits(1)];
    let bytes = made(1, &runs);
    let mut slots = [OLD_SLOT; 2];
    let answer = read(&bytes, &mut slots).unwrap();
    assert_eq!((answer.count, answer.used, slots), (1, 5, [GAP, OLD_SLOT]));
    // Seven bits of padding: the first of a run of 9 have a 1.
    assert_refused(&made(1, &[run_bits(1), run_bits(9)]), 13);
}

/// "a run whose nine bits do not all fit is 12", whether it goes past the count,
/// stands behind a short run, or neither.
#[test]
fn a_run_that_does_not_fit() {
    let runs_that_break_no_rule = made(600, &[vec![run_bits(256)], vec![run_bits(200)]].concat());
    assert_refused(&runs_that_break_no_rule[..5], 12);
    for (count, items) in [
        (1, vec![run_bits(256)]),
        (300, vec![run_bits(256)]),
        (3, vec![run_bits(1), run_bits(1)]),
        (3, vec![run_bits(1), run_bits(256)]),
        (3, vec![sample(), run_bits(200)]),
        (4096, vec![run_bits(256), run_bits(1)]),
    ] {
        let bits: usize = items.iter().map(Vec::len).sum();
        let (start, end) = (bits - 9, bits);
        let bytes = made(count, &items);
        // Cut within the run's nine bits, and before its first.
        for length in 3 + start / 8..3 + end.div_ceil(8) {
            assert_refused(&bytes[..length], 12);
        }
    }
    // A sample that does not fit, behind a run and at the start.
    assert_refused(&made(2, &[run_bits(1), sample()])[..5], 12);
    assert_refused(&made(1, &[sample()])[..4], 12);
    assert_refused(&made(1, &[]), 12);
}

/// "found while walking, at the first such run or at 12, whichever comes earlier
/// in the strip".
#[test]
fn the_earlier_of_21_and_12() {
    let short = run_bits(3);
    // The second run breaks the rule, and the items after it are missing.
    let two_runs = made(1000, &[short.clone(), short.clone()]);
    assert_refused(&two_runs, 21);
    // The same behind 4 samples, and a sample cut off after it.
    let behind = [vec![sample(); 4], vec![short.clone(), short.clone()]].concat();
    let behind = made(1000, &behind);
    assert_refused(&behind, 21);
    // Without the last byte the second run does not fit.
    assert_refused(&two_runs[..two_runs.len() - 1], 12);
    assert_refused(&behind[..behind.len() - 1], 12);
    // A run past the count, all bits of which are there, at the very end.
    assert_refused(&made(9, &[sample(), run_bits(9)]), 21);
    // A run past the count behind a sample that does not fit is never reached.
    assert_refused(&made(9, &[sample(), run_bits(9)])[..4], 12);
    // The count is not reached, but every run keeps the rules.
    assert_refused(&made(9, &[run_bits(3), sample()]), 12);
    assert_refused(&made(600, &[run_bits(256), run_bits(256)]), 12);
}

/// "Count and padding rules apply as in form one."
#[test]
fn padding_bits() {
    for bytes in [short_strip(7, &[GAP]), short_strip(7, &[1, GAP, 3])] {
        let items = check(&bytes).unwrap().1;
        let bits = items.iter().map(|item| if *item == GAP { 9 } else { 15 });
        let padding = 8 * (bytes.len() - 3) - bits.sum::<usize>();
        assert!(padding > 0);
        for place in 0..padding {
            let mut ones = bytes.clone();
            ones[bytes.len() - 1] |= 1 << place;
            assert_refused(&ones, 13);
        }
    }
}

/// "Form one's first three bits are 000 for every count it permits."
#[test]
fn form_one_is_read_as_form_one() {
    for count in 0..=4096 {
        let bytes = strip(9, &vec![GAP; count]);
        assert_eq!(bytes[0] >> 5, 0);
        let (answer, items) = check(&bytes).unwrap();
        assert_eq!((answer.form, items.len()), (Form::One, count));
        assert_eq!(answer.used, bytes.len());
    }
}
