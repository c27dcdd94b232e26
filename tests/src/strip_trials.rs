//! Every call on a list of items, or on bytes, with rooms round what it needs,
//! which the slow version tells; and bytes made like strips.

use crate::answers::Strips;
use crate::comparison::Comparison;
use crate::random::Random;
use crate::reference::strip::{
    bytes_of_bits, header, item_bits, run_bits, strip_in, Form, FORMS, GAP, LONGEST_RUN, MOST_ITEMS,
};
use crate::reference::strip_reading::check;

/// None, one too few, just enough, and more.
fn rooms(exact: usize) -> [usize; 4] {
    [0, exact.saturating_sub(1), exact, exact + 3]
}

/// Writes a list in both forms, into four sizes of buffer each. Items too many
/// for a strip, and numbers that are no items, count in the sizes as if there
/// were a strip of the first items, with gaps in the place of such numbers.
#[track_caller]
pub fn write_in_both<S: Strips>(comparison: &mut Comparison<S>, lane: u8, items: &[u16]) {
    let fitting = items.iter().map(|item| GAP.min(*item)).take(MOST_ITEMS);
    let fitting: Vec<u16> = fitting.collect();
    for form in FORMS {
        for room in rooms(strip_in(form, lane, &fitting).len()) {
            comparison.write_in(form, lane, items, room);
        }
    }
}

/// Checks the bytes, reads them with four numbers of slots, and converts them to
/// both forms with four sizes of buffer each.
#[track_caller]
pub fn take_bytes<S: Strips>(comparison: &mut Comparison<S>, bytes: &[u8]) {
    comparison.check(bytes);
    let (slots, needed) = match check(bytes) {
        Ok((read, items)) => {
            let needed = FORMS.map(|form| strip_in(form, read.lane, &items).len());
            (items.len(), needed)
        }
        Err(_) => (count_told(bytes), [bytes.len(); 2]),
    };
    for room in rooms(slots) {
        comparison.read(bytes, room);
    }
    for (form, exact) in FORMS.into_iter().zip(needed) {
        for room in rooms(exact) {
            comparison.convert(form, bytes, room);
        }
    }
}

/// The number in the count's 13 bits, but no more than a strip can have.
pub fn count_told(bytes: &[u8]) -> usize {
    let first = bytes
        .first_chunk()
        .map_or(0, |two| u16::from_be_bytes(*two));
    usize::from(first & 0x1FFF).min(MOST_ITEMS)
}

/// The bytes of a strip in both forms, as the slow version has them.
pub fn in_both(lane: u8, items: &[u16]) -> [Vec<u8>; 2] {
    FORMS.map(|form| strip_in(form, lane, items))
}

/// Bytes made like a strip in form two: up to that many samples and runs of any
/// lengths, of which some break the rule on runs, behind a count at or near what
/// they come to; often cut, or before other bytes.
pub fn made_of_runs(most: usize, random: &mut Random) -> Vec<u8> {
    let keeps_the_rule = random.below(4) < 3;
    let (mut list, mut items, mut after_short_run) = (Vec::new(), 0, false);
    for _ in 0..random.below(most + 1) {
        let length = match random.below(6) {
            0 => 1 + random.below(LONGEST_RUN),
            1 => 1 + random.below(4),
            2 => LONGEST_RUN - 1,
            _ => LONGEST_RUN,
        };
        if random.one_in(2) || keeps_the_rule && after_short_run {
            list.extend(item_bits(random.item(0)));
            (items, after_short_run) = (items + 1, false);
        } else {
            list.extend(run_bits(length));
            (items, after_short_run) = (items + length, length < LONGEST_RUN);
        }
    }
    let count = match random.below(8) {
        0 => items + 1 + random.below(3),
        1 => items.saturating_sub(1 + random.below(3)),
        2 => random.below(items + 300),
        _ => items,
    };
    let header = header(Form::Two, count.min(8191) as u32, random.byte());
    let mut bytes = whole_bytes([header, list].concat());
    match random.below(8) {
        0 => bytes.truncate(random.below(bytes.len() + 1)),
        1 => bytes.truncate(bytes.len() - 1),
        2 => bytes.extend(random.bytes(3)),
        3 => {
            let last = bytes.len() - 1;
            bytes[last] ^= 1 << random.below(8);
        }
        _ => {}
    }
    bytes
}

/// The bytes of a list of bits, zero bits added to the last byte's end.
fn whole_bytes(mut list: Vec<bool>) -> Vec<u8> {
    while !list.len().is_multiple_of(8) {
        list.push(false);
    }
    bytes_of_bits(&list)
}
