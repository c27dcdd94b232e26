//! Mistakes in strips of two forms, which document 02's Q-8 brought: in writing
//! form two, and in what a reader tells and refuses. `conversion` has those in
//! converting.

use owsopel_tests::answers::{Reading, Written};
use owsopel_tests::archive::Calls;
use owsopel_tests::reference::functions::{
    check_strip, list, list_mut, read_strip, write_short_strip,
};
use owsopel_tests::reference::strip::{
    bits, bits_of_bytes, bytes_of_bits, header, item_bits, number, run_bits, Form, GAP, LONGEST_RUN,
};

use super::lending::{ReadStrip, WriteStrip};
use super::{mistake, Mistake, SLOW};

// ---- Writing form two ----

/// Form two with runs of up to so many gaps, each run's bits as given.
fn strip_of_runs(lane: u8, items: &[u16], longest: usize, run: fn(usize) -> Vec<bool>) -> Vec<u8> {
    let mut list = header(Form::Two, items.len() as u32, lane);
    let mut rest = items;
    while let Some((first, after)) = rest.split_first() {
        let gaps = rest.iter().take(longest).take_while(|item| **item == GAP);
        match gaps.count() {
            0 => {
                list.extend(item_bits(*first));
                rest = after;
            }
            length => {
                list.extend(run(length));
                rest = &rest[length..];
            }
        }
    }
    list.resize(list.len().next_multiple_of(8), false);
    bytes_of_bits(&list)
}

/// What a writing call is given: lane, items and buffer.
type Given = (u8, *const u16, usize, *mut u8, usize);

/// Writes that strip in the place of the right one, where this is taken.
unsafe fn write_instead(
    (lane, items, items_len, buf, buf_len): Given,
    strip: fn(u8, &[u16]) -> Vec<u8>,
) -> Written {
    let mut written = write_short_strip(lane, items, items_len, buf, buf_len);
    if written.refusal != 0 {
        return written;
    }
    let bytes = strip(lane, list(items, items_len));
    if bytes.len() <= buf_len {
        list_mut(buf, bytes.len()).copy_from_slice(&bytes);
        written.bytes = bytes.len();
    }
    written
}

/// A run's length not less 1.
unsafe extern "C" fn write_whole_length(
    lane: u8,
    items: *const u16,
    items_len: usize,
    buf: *mut u8,
    buf_len: usize,
) -> Written {
    write_instead((lane, items, items_len, buf, buf_len), |lane, items| {
        strip_of_runs(lane, items, LONGEST_RUN, |length| bits(length as u32, 9))
    })
}

/// Runs of at most 255.
unsafe extern "C" fn write_shorter_runs(
    lane: u8,
    items: *const u16,
    items_len: usize,
    buf: *mut u8,
    buf_len: usize,
) -> Written {
    write_instead((lane, items, items_len, buf, buf_len), |lane, items| {
        strip_of_runs(lane, items, LONGEST_RUN - 1, run_bits)
    })
}

// ---- Reading and checking ----

/// Tells form 1 of every strip.
unsafe extern "C" fn read_as_form_1(
    bytes: *const u8,
    bytes_len: usize,
    slots: *mut u16,
    slots_len: usize,
) -> Reading {
    let mut reading = read_strip(bytes, bytes_len, slots, slots_len);
    reading.form = reading.form.min(1);
    reading
}

/// 11 after what the walk finds.
unsafe extern "C" fn read_slots_last(
    bytes: *const u8,
    bytes_len: usize,
    slots: *mut u16,
    slots_len: usize,
) -> Reading {
    let reading = read_strip(bytes, bytes_len, slots, slots_len);
    let checked = check_strip(bytes, bytes_len);
    match (reading.refusal, checked.refusal) {
        (11, 21) => checked,
        _ => reading,
    }
}

fn refused(refusal: u8) -> Reading {
    Reading {
        refusal,
        ..Reading::default()
    }
}

/// 20 after 10.
unsafe extern "C" fn check_count_first(bytes: *const u8, bytes_len: usize) -> Reading {
    let reading = check_strip(bytes, bytes_len);
    match (reading.refusal, list(bytes, bytes_len)) {
        (20, [first, low, ..]) if u16::from_be_bytes([first & 0x1F, *low]) > 4096 => refused(10),
        _ => reading,
    }
}

/// 21 where a run whose nine bits do not fit breaks the rule on runs as well.
unsafe extern "C" fn check_21_for_12(bytes: *const u8, bytes_len: usize) -> Reading {
    let reading = check_strip(bytes, bytes_len);
    let longer = [list(bytes, bytes_len), &[0, 0]].concat();
    let with_more = check_strip(longer.as_ptr(), longer.len());
    match (reading.refusal, with_more.refusal) {
        (12, 21) => refused(21),
        _ => reading,
    }
}

/// 12 where the items run past the last byte behind a run that breaks the rule.
unsafe extern "C" fn check_12_for_21(bytes: *const u8, bytes_len: usize) -> Reading {
    let reading = check_strip(bytes, bytes_len);
    if reading.refusal != 21 {
        return reading;
    }
    let list = bits_of_bytes(list(bytes, bytes_len));
    let (mut place, mut left) = (24, number(&list[3..16]));
    while left > 0 && place < list.len() {
        let run = list.get(place + 1..place + 9);
        let (items, width) = match (list[place], run) {
            (true, _) => (1, 15),
            (false, Some(less_1)) => (number(less_1) + 1, 9),
            (false, None) => return refused(12),
        };
        (left, place) = (left.saturating_sub(items), place + width);
    }
    if left > 0 || place > list.len() {
        return refused(12);
    }
    reading
}

/// No run behind a run, although the first is the longest.
unsafe extern "C" fn check_no_two_runs(bytes: *const u8, bytes_len: usize) -> Reading {
    let reading = check_strip(bytes, bytes_len);
    let mut slots = [0; 4096];
    let given = read_strip(bytes, bytes_len, slots.as_mut_ptr(), slots.len());
    let items = &slots[..usize::from(given.count)];
    let mut runs = items.windows(LONGEST_RUN + 1);
    match reading.form {
        2 if runs.any(|run| run.iter().all(|item| *item == GAP)) => refused(21),
        _ => reading,
    }
}

// ---- The versions ----

type CheckStrip = unsafe extern "C" fn(*const u8, usize) -> Reading;

fn writing(name: &'static str, ows_write_short_strip: WriteStrip, told: &'static str) -> Mistake {
    let calls = Calls {
        ows_write_short_strip,
        ..SLOW
    };
    mistake(calls, name, 1, told)
}

fn reading(name: &'static str, ows_read_strip: ReadStrip, told: &'static str) -> Mistake {
    let calls = Calls {
        ows_read_strip,
        ..SLOW
    };
    mistake(calls, name, 1, told)
}

fn checking(name: &'static str, ows_check_strip: CheckStrip, told: &'static str) -> Mistake {
    let calls = Calls {
        ows_check_strip,
        ..SLOW
    };
    mistake(calls, name, 1, told)
}

pub fn form_mistakes() -> Vec<Mistake> {
    let taken = "slow version: Reading { refusal: 0, lane: 0";
    vec![
        writing(
            "a run's length not less 1",
            write_whole_length,
            "items 1 [4000]",
        ),
        writing("runs of at most 255", write_shorter_runs, "items 256 [4000"),
        reading(
            "form 1 told of form two",
            read_as_form_1,
            "bytes 3 [e0 0 0]",
        ),
        reading("11 after 21", read_slots_last, "bytes 5 [e0 1 0 1 0]"),
        checking("20 after 10", check_count_first, "bytes 3 [30 1 0]"),
        checking("21 for 12", check_21_for_12, "bytes 4 [e0 1 0 1]"),
        checking("12 for 21", check_12_for_21, "bytes 6 [e0 3 0 0 0 0]"),
        checking("no run behind a run of 256", check_no_two_runs, taken),
    ]
}
