//! Rules of document 01 on strips, tried on the slow version by itself: those
//! that hold of both forms in both, and form one's own. `strip_form_rules` has
//! those of form two, `strip_conversion_rules` those of converting.

use owsopel_tests::lists::{fixed_lists, random_list, EDGES, NO_ITEMS};
use owsopel_tests::random::Random;
use owsopel_tests::reference::strip::{
    bits, bits_of_bytes, bytes_of_bits, item_bits, number, strip, strip_in, write_in, Form, FORMS,
    GAP,
};
use owsopel_tests::reference::strip_reading::{read, Read};

/// What fills a slot or a buffer byte before a call.
const OLD_SLOT: u16 = 0xBEEF;
const OLD_BYTE: u8 = 0xE7;

/// Reads into that many slots; beside the answer, the slots after the call.
fn read_into(bytes: &[u8], room: usize) -> (Result<Read, u8>, Vec<u16>) {
    let mut slots = vec![OLD_SLOT; room];
    let answer = read(bytes, &mut slots);
    (answer, slots)
}

/// Lane and items read, with a slot for each item a strip can have.
fn lane_and_items(bytes: &[u8]) -> Result<(u8, Vec<u16>), u8> {
    let (answer, slots) = read_into(bytes, 4096);
    let answer = answer?;
    Ok((answer.lane, slots[..usize::from(answer.count)].to_vec()))
}

/// Reading must be refused with that number and leave all slots.
fn assert_refused(bytes: &[u8], room: usize, refusal: u8) {
    let (answer, slots) = read_into(bytes, room);
    assert_eq!(answer, Err(refusal), "{bytes:x?}, {room} slots");
    assert_eq!(slots, vec![OLD_SLOT; room], "a refusal wrote a slot");
}

/// Writing in either form must be refused with that number and leave all bytes.
fn assert_not_written(items: &[u16], room: usize, refusal: u8) {
    for form in FORMS {
        assert_not_written_in(form, items, room, refusal);
    }
}

fn assert_not_written_in(form: Form, items: &[u16], room: usize, refusal: u8) {
    let mut buf = vec![OLD_BYTE; room];
    let answer = write_in(form, 3, items, &mut buf);
    assert_eq!(answer, Err(refusal), "{form:?}, {} items", items.len());
    assert_eq!(buf, vec![OLD_BYTE; room], "a refusal wrote a byte");
}

/// Every short list in either form.
fn lists_in_forms() -> impl Iterator<Item = (Form, Vec<u16>)> {
    let lists = short_lists().into_iter();
    lists.flat_map(|items| FORMS.map(|form| (form, items.clone())))
}

/// Fixed lists and ten random ones of each length up to 20.
fn short_lists() -> Vec<Vec<u16>> {
    let mut random = Random::new(1);
    let mut lists = Vec::new();
    for length in 0..=20 {
        lists.extend(fixed_lists(length));
        for _ in 0..10 {
            lists.push(random_list(length, &mut random));
        }
    }
    lists
}

#[test]
fn numbers_and_lists_of_bits_agree() {
    for n in 0..=0xFFFF {
        assert_eq!(number(&bits(n, 16)), n);
    }
    assert_eq!(bits(6, 4), [false, true, true, false]);
    let bytes: Vec<u8> = (0..=255).collect();
    assert_eq!(bytes_of_bits(&bits_of_bytes(&bytes)), bytes);
}

#[test]
fn each_item_takes_15_bits_or_1() {
    for item in 0..GAP {
        let list = item_bits(item);
        assert_eq!(list.len(), 15);
        assert_eq!(number(&list), 16384 + u32::from(item));
    }
    assert_eq!(item_bits(GAP), [false]);
    for items in short_lists() {
        let gaps = items.iter().filter(|item| **item == GAP).count();
        let places = 24 + 15 * (items.len() - gaps) + gaps;
        assert_eq!(strip(9, &items).len(), places.div_ceil(8));
    }
}

/// Every short list in buffers with 0 to 3 bytes to spare.
#[test]
fn writing_leaves_bytes_past_the_strip() {
    for (form, items) in lists_in_forms() {
        let bytes = strip_in(form, 3, &items);
        for spare in 0..=3 {
            let mut buf = vec![OLD_BYTE; bytes.len() + spare];
            assert_eq!(write_in(form, 3, &items, &mut buf), Ok(bytes.len()));
            assert_eq!(buf, [bytes.clone(), vec![OLD_BYTE; spare]].concat());
        }
    }
}

/// Every short list with 0 to 3 slots to spare, before bytes of three kinds.
#[test]
fn a_strip_reads_back_whatever_follows() {
    for (k, (form, items)) in lists_in_forms().enumerate() {
        let lane = k as u8;
        let strip = strip_in(form, lane, &items);
        let expected = Read {
            lane,
            count: items.len() as u16,
            form,
            used: strip.len(),
        };
        for after in [vec![], vec![0; 3], vec![0xFF; 3], vec![0x5A]] {
            let bytes = [strip.clone(), after].concat();
            for spare in 0..=3 {
                let (answer, slots) = read_into(&bytes, items.len() + spare);
                assert_eq!(answer, Ok(expected));
                assert_eq!(slots, [items.clone(), vec![OLD_SLOT; spare]].concat());
            }
        }
    }
}

/// "A book is strips end to end": all short lists in one book, in either form,
/// lanes as they come.
#[test]
fn a_book_reads_strip_by_strip() {
    let mut book = Vec::new();
    for (k, (form, items)) in lists_in_forms().enumerate() {
        book.extend(strip_in(form, k as u8, &items));
    }
    let mut rest = &book[..];
    for (k, (form, items)) in lists_in_forms().enumerate() {
        let (answer, slots) = read_into(rest, items.len());
        let answer = answer.unwrap();
        assert_eq!((answer.lane, answer.form), (k as u8, form));
        assert_eq!(slots, items);
        rest = &rest[answer.used..];
    }
    assert!(rest.is_empty());
}

/// Every short list, each length below the strip's; enough slots and none.
#[test]
fn a_truncated_strip_is_refused() {
    for (form, items) in lists_in_forms() {
        let bytes = strip_in(form, 200, &items);
        for length in 0..bytes.len() {
            let refusal = if length < 3 { 9 } else { 12 };
            assert_refused(&bytes[..length], items.len(), refusal);
            let refusal = if length < 3 { 9 } else { 11 };
            assert_refused(&bytes[..length], 0, refusal);
        }
    }
}

/// Every bit of the strips up to 12 bytes, alone and before other bytes.
#[test]
fn one_flipped_bit_is_refused_or_reads_differently() {
    for (form, items) in lists_in_forms() {
        let bytes = strip_in(form, 0x5A, &items);
        if bytes.len() > 12 {
            continue;
        }
        for after in [vec![], vec![0; 4], vec![0xFF; 4]] {
            for place in 0..8 * bytes.len() {
                let mut list = bits_of_bytes(&bytes);
                list[place] = !list[place];
                let flipped = [bytes_of_bits(&list), after.clone()].concat();
                let answer = lane_and_items(&flipped);
                assert_ne!(answer, Ok((0x5A, items.clone())), "{flipped:x?}");
            }
        }
    }
}

/// Every two bytes behind counts 0 to 4 in that form: what reads is a strip as
/// written. How many do.
fn strips_of_two_bytes(form: Form, first: u8) -> usize {
    let mut taken = 0;
    for count in 0..=4 {
        for body in 0..=u16::MAX {
            let [high, low] = body.to_be_bytes();
            let bytes = [first, count, 0xC3, high, low];
            let (answer, slots) = read_into(&bytes, 4);
            if let Ok(answer) = answer {
                let items = &slots[..usize::from(answer.count)];
                assert_eq!(strip_in(form, answer.lane, items), bytes[..answer.used]);
                taken += 1;
            }
        }
    }
    taken
}

#[test]
fn only_strips_are_read() {
    let (none, gaps, sample) = (65536, 256, 16384);
    // Count 0 leaves both bytes free, gaps alone leave the second byte, one
    // sample its 14 bits, and a gap stands before or behind it.
    let taken = strips_of_two_bytes(Form::One, 0x00);
    assert_eq!(taken, none + 4 * gaps + sample + 2 * sample);
    // A run leaves nothing of both bytes, and nothing beside it.
    let taken = strips_of_two_bytes(Form::Two, 0xE0);
    assert_eq!(taken, none + sample + 4);
}

#[test]
fn refusals_of_writing_in_order() {
    let [bad, ..] = NO_ITEMS;
    for room in [0, 3, 9000] {
        for items in [vec![GAP; 4097], vec![0; 4097], vec![bad; 4097]] {
            assert_not_written(&items, room, 6);
        }
        assert_not_written(&[0; 65537], room, 6);
        for bad in NO_ITEMS {
            assert_not_written(&[bad], room, 7);
            assert_not_written(&[GAP, 16383, bad], room, 7);
            assert_not_written(&[vec![0; 4095], vec![bad]].concat(), room, 7);
        }
    }
    for (form, items) in FORMS.iter().flat_map(|f| EDGES.map(|edge| (*f, [edge; 3]))) {
        for room in 0..strip_in(form, 3, &items).len() {
            assert_not_written_in(form, &items, room, 8);
        }
    }
}

#[test]
fn refusals_of_reading_in_order() {
    // Fewer than 3 bytes, also with a count above 4096 and without slots.
    for bytes in [&[][..], &[0], &[0xFF], &[0, 0], &[0xFF, 0xFF], &[0, 1]] {
        assert_refused(bytes, 0, 9);
        assert_refused(bytes, 5, 9);
    }
    // A count above 4096, also without slots and with items or without; with
    // form two's first bits as well.
    for count in [4097, 4098, 8191].into_iter().flat_map(|c| [c, 0xE000 + c]) {
        let [high, low] = u16::to_be_bytes(count);
        for after in [0, 9000] {
            let bytes = [vec![high, low, 7], vec![0; after]].concat();
            for room in [0, 4096, 4097, usize::from(u16::MAX)] {
                assert_refused(&bytes, room, 10);
            }
        }
    }
    // One slot too few, also with items past the last byte or a padding bit 1.
    for bytes in [&[0, 2, 7][..], &[0, 2, 7, 0], &[0, 2, 7, 0x3F]] {
        assert_refused(bytes, 1, 11);
        assert_refused(bytes, 0, 11);
    }
    // Past the last byte: all items, a sample's last 7 bits, its last bit, a
    // gap's only bit.
    assert_refused(&[0, 1, 7], 1, 12);
    assert_refused(&[0, 1, 7, 0x80], 1, 12);
    assert_refused(&[0, 3, 7, 0x20, 0x00], 3, 12);
    assert_refused(&[0, 9, 7, 0x00], 9, 12);
    // Each padding bit by itself, behind a gap and behind a sample.
    for place in 0..7 {
        assert_refused(&[0, 1, 7, 1 << place], 1, 13);
    }
    assert_refused(&[0, 1, 7, 0x80, 0x01], 1, 13);
}

#[test]
fn counts_4096_and_4097() {
    let turns: Vec<u16> = (0..4096).map(|k| EDGES[k % 6]).collect();
    for items in [vec![GAP; 4096], vec![16383; 4096], turns] {
        let bytes = strip(255, &items);
        assert_eq!(bytes[..3], [0x10, 0x00, 0xFF]);
        assert_eq!(lane_and_items(&bytes), Ok((255, items.clone())));
        assert_refused(&bytes, 4095, 11);
        assert_refused(&bytes[..bytes.len() - 1], 4096, 12);

        let mut buf = vec![OLD_BYTE; bytes.len()];
        assert_eq!(write_in(Form::One, 255, &items, &mut buf), Ok(bytes.len()));
        assert_eq!(buf, bytes);
        assert_not_written_in(Form::One, &items, bytes.len() - 1, 8);
        assert_not_written(&[items, vec![GAP]].concat(), 9000, 6);
    }
    assert_eq!(strip(0, &[GAP; 4096]).len(), 3 + 512);
    assert_eq!(strip(0, &[16383; 4096]).len(), 3 + 7680);
}

#[test]
fn items_16383_16384_and_16385() {
    let mut buf = [OLD_BYTE; 6];
    assert_eq!(write_in(Form::One, 1, &[16383], &mut buf), Ok(5));
    assert_eq!(buf, [0, 1, 1, 0xFF, 0xFE, OLD_BYTE]);
    let mut buf = [OLD_BYTE; 6];
    assert_eq!(write_in(Form::One, 1, &[16384], &mut buf), Ok(4));
    assert_eq!(buf, [0, 1, 1, 0x00, OLD_BYTE, OLD_BYTE]);
    assert_not_written(&[16385], 6, 7);
}
