//! Rules of document 02's Q-8 on converting strips, tried on the slow version by
//! itself.

use owsopel_tests::lists::{fixed_lists, random_list};
use owsopel_tests::random::Random;
use owsopel_tests::reference::strip::{short_strip, strip, strip_in, Form, FORMS, GAP};
use owsopel_tests::reference::strip_conversion::{convert, Conversion};

/// What fills a buffer byte before a call.
const OLD_BYTE: u8 = 0xE7;

/// Converts into a buffer of so many bytes; beside the answer, its content.
fn convert_into(wanted: Form, bytes: &[u8], room: usize) -> (Result<Conversion, u8>, Vec<u8>) {
    let mut buf = vec![OLD_BYTE; room];
    let answer = convert(wanted, bytes, &mut buf);
    (answer, buf)
}

/// Converting to either form must be refused with that number and leave all
/// bytes.
#[track_caller]
fn assert_refused(bytes: &[u8], room: usize, refusal: u8) {
    for wanted in FORMS {
        let (answer, buf) = convert_into(wanted, bytes, room);
        assert_eq!(answer, Err(refusal), "to {wanted:?}, {bytes:x?}");
        assert_eq!(buf, vec![OLD_BYTE; room], "a refusal wrote a byte");
    }
}

fn lists() -> Vec<Vec<u16>> {
    let mut random = Random::new(2);
    let mut lists = Vec::new();
    for length in [0, 1, 2, 3, 7, 8, 9, 20, 255, 256, 257, 300, 600] {
        lists.extend(fixed_lists(length));
        for _ in 0..5 {
            lists.push(random_list(length, &mut random));
        }
    }
    lists
}

/// "Old strips convert to form two and back to the same bytes", and the other
/// way round; "carries over a strip already in the wanted form"; bytes after the
/// strip and past the one written do not matter.
#[test]
fn strips_convert_and_back() {
    for (k, items) in lists().into_iter().enumerate() {
        let both = FORMS.map(|form| strip_in(form, k as u8, &items));
        for (from, to) in [(0, 0), (0, 1), (1, 0), (1, 1)] {
            let (given, wanted) = (&both[from], &both[to]);
            for after in [&[][..], &[0; 2], &[0xFF; 5]] {
                let bytes = [given, after].concat();
                let (answer, buf) = convert_into(FORMS[to], &bytes, wanted.len() + 2);
                let expected = Conversion {
                    used: given.len(),
                    written: wanted.len(),
                };
                assert_eq!(answer, Ok(expected));
                assert_eq!(buf, [&wanted[..], &[OLD_BYTE; 2]].concat());
            }
        }
    }
}

/// By hand: lane 5, items 1 and gap, from either form to either.
#[test]
fn a_strip_by_hand() {
    let one = [0x00, 0x02, 0x05, 0x80, 0x02];
    let two = [0xE0, 0x02, 0x05, 0x80, 0x02, 0x00];
    let (used, written) = (5, 6);
    let (answer, buf) = convert_into(Form::Two, &one, 6);
    assert_eq!(
        (answer, &buf[..]),
        (Ok(Conversion { used, written }), &two[..])
    );
    let (used, written) = (6, 5);
    let (answer, buf) = convert_into(Form::One, &two, 5);
    assert_eq!(
        (answer, &buf[..]),
        (Ok(Conversion { used, written }), &one[..])
    );
}

/// 4096 gaps: 515 bytes in form one, 21 in form two.
#[test]
fn the_most_gaps() {
    let items = [GAP; 4096];
    let (one, two) = (strip(1, &items), short_strip(1, &items));
    assert_eq!((one.len(), two.len()), (515, 21));
    let (answer, buf) = convert_into(Form::Two, &one, 21);
    assert_eq!((answer.unwrap().written, buf), (21, two.clone()));
    let (answer, buf) = convert_into(Form::One, &two, 515);
    assert_eq!((answer.unwrap().written, buf), (515, one));
}

/// "and gives the strip's refusals but 11, then 8": each of them before 8, and 8
/// where the buffer is a byte short or has none.
#[test]
fn refusals_in_order() {
    for room in [0, 3, 600] {
        assert_refused(&[0xE0, 0x00], room, 9);
        assert_refused(&[0x20, 0x00, 0x07], room, 20);
        assert_refused(&[0xDF, 0xFF, 0x07], room, 20);
        assert_refused(&[0x10, 0x01, 0x07], room, 10);
        assert_refused(&[0xF0, 0x01, 0x07], room, 10);
        assert_refused(&[0x00, 0x01, 0x07], room, 12);
        assert_refused(&[0xE0, 0x01, 0x07, 0x00], room, 12);
        assert_refused(&[0xE0, 0x01, 0x07, 0x00, 0x80], room, 21);
        assert_refused(&[0xE0, 0x03, 0x07, 0x00, 0x00, 0x00], room, 21);
        assert_refused(&[0x00, 0x01, 0x07, 0x01], room, 13);
        assert_refused(&[0xE0, 0x01, 0x07, 0x00, 0x01], room, 13);
    }
    for items in lists() {
        for (from, wanted) in [(0, 0), (0, 1), (1, 0), (1, 1)].map(|(f, t)| (FORMS[f], FORMS[t])) {
            let bytes = strip_in(from, 9, &items);
            let needed = strip_in(wanted, 9, &items).len();
            for room in [0, 2, needed - 1] {
                let (answer, buf) = convert_into(wanted, &bytes, room);
                assert_eq!((answer, buf), (Err(8), vec![OLD_BYTE; room]));
            }
        }
    }
}
