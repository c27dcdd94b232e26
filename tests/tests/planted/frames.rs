//! Mistakes in feeding by whole frames, which document 02's Q-13 brought: the
//! slow version's rules, byte by byte and a run of sound frames at once, with one
//! of them changed.

use owsopel_tests::archive::Calls;
use owsopel_tests::lines::bits_of;
use owsopel_tests::records::{self, Fed};
use owsopel_tests::reference::frame::bits;
use owsopel_tests::reference::functions::{feed, list, list_mut};
use owsopel_tests::reference::receiver::{Mode, Receiver};
use owsopel_tests::reference::receiver_record::{from_record, to_record};
use owsopel_tests::reference::strip::GAP;

use super::receiver::ended;
use super::{mistake, Mistake, SLOW};

/// How a byte is read, what a run of sound frames leaves, and which byte is used
/// with no slot free.
trait Rules {
    fn read_byte(receiver: &mut Receiver, byte: u8) -> Option<u16> {
        read_bits(receiver, &bits::<8>(byte.into()))
    }

    fn end_run(_before: &Receiver, _after: &mut Receiver) {}

    /// Whether the first of the bytes left is used.
    fn uses_without_slot(_receiver: &Receiver, _left: usize) -> bool {
        false
    }
}

/// Reads bits that end at most one frame; the item, if they hand one out.
fn read_bits(receiver: &mut Receiver, bits: &[bool]) -> Option<u16> {
    let read = |item: Option<u16>, bit: &bool| receiver.read_bit(*bit).or(item);
    bits.iter().fold(None, read)
}

/// The sound frames of two bytes each that come next in Locked with under 8 bits
/// held; their number.
fn run(receiver: &mut Receiver, bytes: &[u8], slots: &mut [u16]) -> usize {
    let mut frames = 0;
    for (two, slot) in bytes.chunks_exact(2).zip(slots) {
        let is_locked = matches!(receiver.mode, Mode::Locked { .. });
        let mut after = receiver.clone();
        match read_bits(&mut after, &bits_of(two)) {
            Some(item) if item != GAP && is_locked && receiver.held.len() < 8 => *slot = item,
            _ => break,
        }
        *receiver = after;
        frames += 1;
    }
    frames
}

/// Feeding by these rules.
unsafe extern "C" fn feed_by<R: Rules>(
    record: records::Receiver,
    bytes: *const u8,
    bytes_len: usize,
    slots: *mut u16,
    slots_len: usize,
) -> Fed {
    let Ok(mut receiver) = from_record(&record) else {
        return feed(record, bytes, bytes_len, slots, slots_len);
    };
    let (bytes, slots) = (list(bytes, bytes_len), list_mut(slots, slots_len));
    let (mut used, mut filled) = (0, 0);
    while used < bytes.len() && filled < slots.len() {
        if let Some(item) = R::read_byte(&mut receiver, bytes[used]) {
            slots[filled] = item;
            filled += 1;
        }
        used += 1;
        let before = receiver.clone();
        let frames = run(&mut receiver, &bytes[used..], &mut slots[filled..]);
        if frames > 0 {
            R::end_run(&before, &mut receiver);
        }
        (used, filled) = (used + 2 * frames, filled + frames);
    }
    let left = bytes.len() - used;
    if left > 0 && R::uses_without_slot(&receiver, left) {
        R::read_byte(&mut receiver, bytes[used]);
        used += 1;
    }
    Fed {
        refusal: 0,
        receiver: to_record(&receiver),
        bytes: used,
        slots: filled,
    }
}

// ---- The rules ----

struct Right;

impl Rules for Right {}

/// Reads a byte up to the end of a frame after which the rest is dropped.
fn read_dropping(
    receiver: &mut Receiver,
    byte: u8,
    is_dropped: fn(Mode, Mode) -> bool,
) -> Option<u16> {
    let mut item = None;
    for bit in bits::<8>(byte.into()) {
        let (was, frame) = (receiver.mode, ended(receiver, bit));
        item = receiver.read_bit(bit).or(item);
        if frame.is_some() && is_dropped(was, receiver.mode) {
            break;
        }
    }
    item
}

struct LeftBitsDropped;

impl Rules for LeftBitsDropped {
    fn read_byte(receiver: &mut Receiver, byte: u8) -> Option<u16> {
        read_dropping(receiver, byte, |_, mode| mode != Mode::Hunt)
    }
}

struct OffsetLost;

impl Rules for OffsetLost {
    fn read_byte(receiver: &mut Receiver, byte: u8) -> Option<u16> {
        read_dropping(receiver, byte, |was, mode| {
            matches!(was, Mode::Locked { .. }) && mode == Mode::Hunt
        })
    }
}

struct ByteWithoutSlot;

impl Rules for ByteWithoutSlot {
    fn uses_without_slot(_: &Receiver, _: usize) -> bool {
        true
    }
}

struct FirstByteWithoutSlot;

impl Rules for FirstByteWithoutSlot {
    fn uses_without_slot(receiver: &Receiver, left: usize) -> bool {
        receiver.mode != Mode::Hunt && receiver.held.len() < 8 && left >= 2
    }
}

struct OneFrameCounted;

impl Rules for OneFrameCounted {
    fn end_run(before: &Receiver, after: &mut Receiver) {
        after.samples = before.samples.saturating_add(1);
    }
}

struct SumsNotKept;

impl Rules for SumsNotKept {
    fn end_run(before: &Receiver, after: &mut Receiver) {
        after.sums = before.sums;
    }
}

struct ResultsNotShifted;

impl Rules for ResultsNotShifted {
    fn end_run(before: &Receiver, after: &mut Receiver) {
        if let (Mode::Locked { results: old, .. }, Mode::Locked { results, .. }) =
            (before.mode, &mut after.mode)
        {
            *results = old;
        }
    }
}

/// Looks for the pair at the byte's end alone.
struct PairInByteMissed;

impl Rules for PairInByteMissed {
    fn read_byte(receiver: &mut Receiver, byte: u8) -> Option<u16> {
        let eight = bits::<8>(byte.into());
        if receiver.mode != Mode::Hunt {
            return read_bits(receiver, &eight);
        }
        receiver.held.extend(&eight[..7]);
        let earlier = receiver.held.len().saturating_sub(32);
        receiver.held.drain(..earlier);
        receiver.read_bit(eight[7])
    }
}

// ---- The versions ----

fn by<R: Rules>() -> Calls {
    Calls {
        ows_feed_frames: feed_by::<R>,
        ..SLOW
    }
}

/// The version with no mistake.
pub fn feeding_by_frames() -> Calls {
    by::<Right>()
}

/// Feeding by whole frames with a mistake.
fn in_frames<R: Rules>(name: &'static str, told: &'static str) -> Mistake {
    mistake(by::<R>(), name, 2, told)
}

pub fn frames_mistakes() -> Vec<Mistake> {
    vec![
        in_frames::<LeftBitsDropped>(
            "bits left after a frame dropped",
            "ows_feed_frames: bytes 1 [0], room for 1",
        ),
        in_frames::<OffsetLost>(
            "bits left after a loss of lock not given to Hunt",
            "receiver: Receiver { mode: 0, bits: 0, count: 0",
        ),
        in_frames::<ByteWithoutSlot>(
            "a byte used with no slot free",
            "ows_feed_frames: bytes 1 [0], room for 0",
        ),
        in_frames::<FirstByteWithoutSlot>(
            "the first of two bytes used with no slot free",
            "ows_feed_frames: bytes 2 [0 0], room for 0",
        ),
        in_frames::<OneFrameCounted>(
            "one frame of a run counted",
            "ows_feed_frames: bytes 6 [0 0 0 40 0 0], room for 3",
        ),
        in_frames::<SumsNotKept>(
            "sums of a run not kept",
            "ows_feed_frames: bytes 4 [0 0 0 40], room for 2",
        ),
        in_frames::<ResultsNotShifted>("results of a run not shifted", "results: 4"),
        in_frames::<PairInByteMissed>(
            "a byte of Hunt shifted in whole although a pair ends in it",
            "mode: 1, bits: 0, count: 7",
        ),
    ]
}
