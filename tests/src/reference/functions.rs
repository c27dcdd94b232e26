//! The slow version as functions of the C interface, so that it can stand in
//! the archive's place.

use super::{calls, frame};
use crate::answers::{Built, Content, Converted, Reading, Sampled, Stepped, Written};
use crate::archive::Calls;
use crate::records::{Fed, Receiver, ReceiverSynced, Sender, Sent, Started};

/// The slow version's functions.
pub const SLOW: Calls = Calls {
    name: "slow version itself",
    ows_next: next,
    ows_check_seed: check_seed,
    ows_lane_seed: lane_seed,
    ows_disparity: disparity,
    ows_build: build,
    ows_read: read,
    ows_read_sample: read_sample,
    ows_start: start,
    ows_start_with: start_with,
    ows_sync: sync,
    ows_send: send,
    ows_fresh: fresh,
    ows_receiver_sync: receiver_sync,
    ows_feed: feed,
    ows_feed_frames: feed,
    ows_write_strip: write_strip,
    ows_write_short_strip: write_short_strip,
    ows_read_strip: read_strip,
    ows_check_strip: check_strip,
    ows_shorten_strip: shorten_strip,
    ows_expand_strip: expand_strip,
};

/// A list lent for reading.
///
/// # Safety
/// The pointer holds for the length.
pub unsafe fn list<'a, T>(pointer: *const T, length: usize) -> &'a [T] {
    match length {
        0 => &[],
        _ => std::slice::from_raw_parts(pointer, length),
    }
}

/// A list lent for writing.
///
/// # Safety
/// The pointer holds for the length, and nothing else uses the list.
pub unsafe fn list_mut<'a, T>(pointer: *mut T, length: usize) -> &'a mut [T] {
    match length {
        0 => &mut [],
        _ => std::slice::from_raw_parts_mut(pointer, length),
    }
}

extern "C" fn next(state: u32) -> Stepped {
    calls::next(state)
}

extern "C" fn check_seed(seed: u32) -> u8 {
    calls::check_seed(seed)
}

extern "C" fn lane_seed(lane: u8) -> u32 {
    frame::lane_seed(lane)
}

extern "C" fn disparity(frame: u16) -> i32 {
    frame::disparity(frame)
}

extern "C" fn build(sample: u16, state: u32, clock: u32, r: i32) -> Built {
    calls::build(sample, state, clock, r)
}

extern "C" fn read(frame: u16) -> Content {
    calls::read(frame)
}

extern "C" fn read_sample(frame: u16, state: u32) -> Sampled {
    calls::read_sample(frame, state)
}

extern "C" fn start(seed: u32) -> Started {
    calls::start(seed)
}

extern "C" fn start_with(seed: u32, alignment: u32) -> Started {
    calls::start_with(seed, alignment)
}

/// # Safety
/// The pointer is aligned and holds for the record.
pub unsafe extern "C" fn sync(sender: *mut Sender) -> u8 {
    calls::sync(&mut *sender)
}

/// # Safety
/// The pointers are aligned and hold for their lengths.
pub unsafe extern "C" fn send(
    sender: Sender,
    samples: *const u16,
    samples_len: usize,
    buf: *mut u8,
    buf_len: usize,
) -> Sent {
    calls::send(sender, list(samples, samples_len), list_mut(buf, buf_len))
}

extern "C" fn fresh() -> Receiver {
    calls::fresh()
}

extern "C" fn receiver_sync(receiver: Receiver) -> ReceiverSynced {
    calls::receiver_sync(receiver)
}

/// # Safety
/// The pointers are aligned and hold for their lengths.
pub unsafe extern "C" fn feed(
    receiver: Receiver,
    bytes: *const u8,
    bytes_len: usize,
    slots: *mut u16,
    slots_len: usize,
) -> Fed {
    calls::feed(receiver, list(bytes, bytes_len), list_mut(slots, slots_len))
}

/// # Safety
/// The pointers are aligned and hold for their lengths.
pub unsafe extern "C" fn write_strip(
    lane: u8,
    items: *const u16,
    items_len: usize,
    buf: *mut u8,
    buf_len: usize,
) -> Written {
    calls::write_strip(lane, list(items, items_len), list_mut(buf, buf_len))
}

/// # Safety
/// The pointers are aligned and hold for their lengths.
pub unsafe extern "C" fn write_short_strip(
    lane: u8,
    items: *const u16,
    items_len: usize,
    buf: *mut u8,
    buf_len: usize,
) -> Written {
    calls::write_short_strip(lane, list(items, items_len), list_mut(buf, buf_len))
}

/// # Safety
/// The pointers are aligned and hold for their lengths.
pub unsafe extern "C" fn read_strip(
    bytes: *const u8,
    bytes_len: usize,
    slots: *mut u16,
    slots_len: usize,
) -> Reading {
    calls::read_strip(list(bytes, bytes_len), list_mut(slots, slots_len))
}

/// # Safety
/// The pointer holds for the length.
pub unsafe extern "C" fn check_strip(bytes: *const u8, bytes_len: usize) -> Reading {
    calls::check_strip(list(bytes, bytes_len))
}

/// # Safety
/// The pointers hold for their lengths.
pub unsafe extern "C" fn shorten_strip(
    bytes: *const u8,
    bytes_len: usize,
    buf: *mut u8,
    buf_len: usize,
) -> Converted {
    calls::shorten_strip(list(bytes, bytes_len), list_mut(buf, buf_len))
}

/// # Safety
/// The pointers hold for their lengths.
pub unsafe extern "C" fn expand_strip(
    bytes: *const u8,
    bytes_len: usize,
    buf: *mut u8,
    buf_len: usize,
) -> Converted {
    calls::expand_strip(list(bytes, bytes_len), list_mut(buf, buf_len))
}
