//! Mistakes in strips, and in what is lent: elements written that must keep
//! their content, inside the buffer and outside, and lists lent for reading.

use owsopel_tests::answers::{Reading, Written};
use owsopel_tests::archive::Calls;
use owsopel_tests::records::{Fed, Receiver, Sender, Sent};
use owsopel_tests::reference::functions::{
    feed, list, list_mut, read_strip, send, sync, write_strip,
};

use super::{mistake, Mistake, SLOW};

/// Clears the byte after the strip: where the buffer has one, or outside it.
unsafe extern "C" fn write_past<const OUTSIDE: bool>(
    lane: u8,
    items: *const u16,
    items_len: usize,
    buf: *mut u8,
    buf_len: usize,
) -> Written {
    let written = write_strip(lane, items, items_len, buf, buf_len);
    if written.refusal == 0 && (written.bytes == buf_len) == OUTSIDE {
        buf.add(written.bytes).write(0);
    }
    written
}

/// Takes a strip whose padding has ones.
unsafe extern "C" fn read_without_padding(
    bytes: *const u8,
    bytes_len: usize,
    slots: *mut u16,
    slots_len: usize,
) -> Reading {
    let reading = read_strip(bytes, bytes_len, slots, slots_len);
    if reading.refusal != 13 {
        return reading;
    }
    for length in 3..=bytes_len {
        let mut cleared = list(bytes, length).to_vec();
        for ones in 0..7 {
            cleared[length - 1] &= 0xFE << ones;
            let tried = read_strip(cleared.as_ptr(), length, slots, slots_len);
            if tried.refusal == 0 {
                return tried;
            }
        }
    }
    reading
}

/// Writes to the bytes it reads.
unsafe extern "C" fn read_and_alter(
    bytes: *const u8,
    bytes_len: usize,
    slots: *mut u16,
    slots_len: usize,
) -> Reading {
    let reading = read_strip(bytes, bytes_len, slots, slots_len);
    if reading.refusal == 0 {
        list_mut(bytes.cast_mut(), bytes_len)[2] ^= 1;
    }
    reading
}

/// Puts an item before the slots as well.
unsafe extern "C" fn feed_before_slots(
    receiver: Receiver,
    bytes: *const u8,
    bytes_len: usize,
    slots: *mut u16,
    slots_len: usize,
) -> Fed {
    let fed = feed(receiver, bytes, bytes_len, slots, slots_len);
    if fed.slots > 0 {
        slots.sub(1).write(slots.read());
    }
    fed
}

/// Puts an item after the slots where all are used.
unsafe extern "C" fn feed_frames_past_slots(
    receiver: Receiver,
    bytes: *const u8,
    bytes_len: usize,
    slots: *mut u16,
    slots_len: usize,
) -> Fed {
    let fed = feed(receiver, bytes, bytes_len, slots, slots_len);
    if fed.slots > 0 && fed.slots == slots_len {
        slots.add(slots_len).write(0);
    }
    fed
}

/// Tells one sample more than there were.
unsafe extern "C" fn send_more(
    sender: Sender,
    samples: *const u16,
    samples_len: usize,
    buf: *mut u8,
    buf_len: usize,
) -> Sent {
    let mut sent = send(sender, samples, samples_len, buf, buf_len);
    sent.taken += usize::from(sent.taken > 0);
    sent
}

/// Writes past the record.
unsafe extern "C" fn sync_past_record(sender: *mut Sender) -> u8 {
    let refusal = sync(sender);
    if refusal == 0 {
        sender.add(1).cast::<u32>().write(0);
    }
    refusal
}

fn writing(ows_write_strip: WriteStrip) -> Calls {
    Calls {
        ows_write_strip,
        ..SLOW
    }
}

fn reading(ows_read_strip: ReadStrip) -> Calls {
    Calls {
        ows_read_strip,
        ..SLOW
    }
}

pub type WriteStrip = unsafe extern "C" fn(u8, *const u16, usize, *mut u8, usize) -> Written;
pub type ReadStrip = unsafe extern "C" fn(*const u8, usize, *mut u16, usize) -> Reading;

pub fn strip_mistakes() -> Vec<Mistake> {
    let past = writing(write_past::<false>);
    let padding = reading(read_without_padding);
    vec![
        mistake(past, "writing a byte past the strip", 1, "items 0 []"),
        mistake(padding, "forgetting the padding", 1, "refusal: 13"),
    ]
}

pub fn lending_mistakes() -> Vec<Mistake> {
    let past = writing(write_past::<true>);
    let altering = reading(read_and_alter);
    let before = Calls {
        ows_feed: feed_before_slots,
        ..SLOW
    };
    let after = Calls {
        ows_feed_frames: feed_frames_past_slots,
        ..SLOW
    };
    let more = Calls {
        ows_send: send_more,
        ..SLOW
    };
    let record = Calls {
        ows_sync: sync_past_record,
        ..SLOW
    };
    let past_told = "guard 1 after the buffer became 0x0";
    vec![
        mistake(past, "writing past the buffer", 1, past_told),
        mistake(altering, "altering what is read", 1, "the bytes became"),
        mistake(before, "before the slots", 2, "guard 1 before the slots"),
        mistake(after, "after the slots", 2, "guard 1 after the slots"),
        mistake(more, "telling too many samples", 2, "more than was lent"),
        mistake(record, "past the record", 2, "guard 1 after the record"),
    ]
}
