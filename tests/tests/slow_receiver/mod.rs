//! Feeding the slow version's receiver by itself.

use owsopel_tests::lane_records::sequence_bytes;
use owsopel_tests::lines::bytes_of;
use owsopel_tests::records::{Receiver, Sender};
use owsopel_tests::reference::frame::line_bits;
use owsopel_tests::reference::receiver::{feed, fresh};
use owsopel_tests::reference::receiver_record::to_record;
use owsopel_tests::reference::sender::{send, start_with};

/// What fills a slot before a call.
const OLD_SLOT: u16 = 0xBEEF;

/// A receiver in Hunt with no bits held and totals 0.
pub fn hunt() -> Receiver {
    to_record(&fresh())
}

/// Feeds whole bytes with slots enough; the items.
pub fn items(receiver: &mut Receiver, bytes: &[u8]) -> Vec<u16> {
    let mut slots = vec![OLD_SLOT; bytes.len()];
    let used = feed(receiver, bytes, &mut slots).unwrap();
    assert_eq!(used.bytes, bytes.len());
    slots.truncate(used.slots);
    slots
}

/// Feeds one frame; the receiver after it, and the item.
pub fn after(receiver: Receiver, frame: u16) -> (Receiver, Option<u16>) {
    let mut receiver = receiver;
    let items = items(&mut receiver, &bytes_of(&line_bits(frame)));
    assert!(items.len() <= 1);
    (receiver, items.first().copied())
}

/// The sequence with that number of alignment frames and the samples as sent
/// from seed 1, and the sender after.
pub fn line(alignment: u32, samples: &[u16]) -> (Vec<u8>, Sender) {
    let mut sender = start_with(1, alignment).unwrap();
    let mut line = vec![0; sequence_bytes(alignment) + 2 * samples.len()];
    send(&mut sender, samples, &mut line).unwrap();
    (line, sender)
}
