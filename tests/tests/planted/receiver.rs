//! Mistakes in the receiver: the slow version's rules, bit by bit, with one of
//! them changed.

use owsopel_tests::archive::Calls;
use owsopel_tests::records::{self, Fed, ReceiverSynced};
use owsopel_tests::reference::calls;
use owsopel_tests::reference::frame::{bits, number, read};
use owsopel_tests::reference::functions::{feed, list, list_mut};
use owsopel_tests::reference::receiver::{Mode, Receiver};
use owsopel_tests::reference::receiver_record::{from_record, to_record};
use owsopel_tests::reference::strip::GAP;

use super::{Mistake, SLOW};

/// How a record and a byte are taken and a bit is read.
pub(super) trait Rules {
    fn record(record: records::Receiver) -> records::Receiver {
        record
    }

    fn byte(byte: u8) -> u8 {
        byte
    }

    fn read_bit(receiver: &mut Receiver, bit: bool) -> Option<u16> {
        receiver.read_bit(bit)
    }
}

/// The frame that the bit ends, if it ends one.
pub(super) fn ended(receiver: &Receiver, bit: bool) -> Option<u16> {
    if receiver.mode == Mode::Hunt || receiver.held.len() < 15 {
        return None;
    }
    Some(number(&[&receiver.held[..], &[bit]].concat()) as u16)
}

struct ClockBitFirst;

impl Rules for ClockBitFirst {
    fn read_bit(receiver: &mut Receiver, bit: bool) -> Option<u16> {
        // The inversion then gives the clock bit that came on the line.
        if ended(receiver, bit).is_some() && bit {
            receiver.held[14] = !receiver.held[14];
        }
        receiver.read_bit(bit)
    }
}

struct StateZero;

impl Rules for StateZero {
    fn read_bit(receiver: &mut Receiver, bit: bool) -> Option<u16> {
        let Some(frame) = ended(receiver, bit) else {
            return receiver.read_bit(bit);
        };
        let content = read(frame);
        let (clock, data) = (content.clock, content.scrambled);
        let (mut read, state) = (2, 0);
        match receiver.mode {
            Mode::First { data: 0, clock: c } if data == 0 && clock != c => {}
            Mode::Prove { state: 0, .. } => read = 3,
            _ => return receiver.read_bit(bit),
        }
        receiver.mode = Mode::Prove { read, state, clock };
        receiver.held.clear();
        None
    }
}

struct GapWithoutStep;

impl Rules for GapWithoutStep {
    fn read_bit(receiver: &mut Receiver, bit: bool) -> Option<u16> {
        let before = receiver.mode;
        let item = receiver.read_bit(bit);
        if let (Mode::Locked { state: old, .. }, Mode::Locked { state, .. }, Some(GAP)) =
            (before, &mut receiver.mode, item)
        {
            *state = old;
        }
        item
    }
}

struct HighestBitFirst;

impl Rules for HighestBitFirst {
    fn byte(byte: u8) -> u8 {
        byte.reverse_bits()
    }
}

struct TotalStartsAgain;

impl Rules for TotalStartsAgain {
    fn read_bit(receiver: &mut Receiver, bit: bool) -> Option<u16> {
        let before = receiver.samples;
        let item = receiver.read_bit(bit);
        if before == u64::MAX && item.is_some_and(|item| item != GAP) {
            receiver.samples = 0;
        }
        item
    }
}

/// Feeding by these rules.
pub(super) unsafe extern "C" fn feed_by<R: Rules>(
    record: records::Receiver,
    bytes: *const u8,
    bytes_len: usize,
    slots: *mut u16,
    slots_len: usize,
) -> Fed {
    let Ok(mut receiver) = from_record(&R::record(record)) else {
        return feed(record, bytes, bytes_len, slots, slots_len);
    };
    let (bytes, slots) = (list(bytes, bytes_len), list_mut(slots, slots_len));
    let (mut used, mut filled) = (0, 0);
    while used < bytes.len() && filled < slots.len() {
        for bit in bits::<8>(u32::from(R::byte(bytes[used]))) {
            if let Some(item) = R::read_bit(&mut receiver, bit) {
                slots[filled] = item;
                filled += 1;
            }
        }
        used += 1;
    }
    Fed {
        refusal: 0,
        receiver: to_record(&receiver),
        bytes: used,
        slots: filled,
    }
}

/// "a feed that works in its first call and idles after".
unsafe extern "C" fn feed_then_idle(
    record: records::Receiver,
    bytes: *const u8,
    bytes_len: usize,
    slots: *mut u16,
    slots_len: usize,
) -> Fed {
    let idle = record.samples > 0;
    let given = if idle { 0 } else { bytes_len };
    feed(record, bytes, given, slots, slots_len)
}

/// Enters Hunt with the bits that were held.
extern "C" fn sync_with_bits(record: records::Receiver) -> ReceiverSynced {
    let mut answer = calls::receiver_sync(record);
    (answer.receiver.bits, answer.receiver.count) = (record.bits, record.count);
    answer
}

/// The version with the mistake of that name.
pub fn mistake(name: &'static str) -> Mistake {
    let ows_feed = match name {
        "judging the clock bit before undoing the inversion" => feed_by::<ClockBitFirst>,
        "accepting recovered state 0" => feed_by::<StateZero>,
        "not stepping the scrambler on a gap" => feed_by::<GapWithoutStep>,
        "most significant bit first on the line" => feed_by::<HighestBitFirst>,
        "a total that starts again from 0" => feed_by::<TotalStartsAgain>,
        "a feed that idles after its first items" => feed_then_idle,
        _ => SLOW.ows_feed,
    };
    let ows_receiver_sync = match name {
        "a sync that keeps the bits held" => sync_with_bits,
        _ => SLOW.ows_receiver_sync,
    };
    Mistake {
        calls: Calls {
            name,
            ows_feed,
            ows_receiver_sync,
            ..SLOW
        },
        calls_needed: 2,
        told: "receiver 0",
    }
}
