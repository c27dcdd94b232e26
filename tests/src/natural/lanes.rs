//! The natural versions that feed by bytes and by two bytes a frame, as lanes
//! to be compared.

use super::flat::{fed, Natural};
use super::receiver::Receiver;
use crate::records::{self, Fed, Lane, ReceiverSynced, Sender, Sent, Started};

/// A natural version that feeds in another way, and is as the first in all else.
pub trait Feeding {
    const NAME: &'static str;

    fn feed(receiver: &mut Receiver, bytes: &[u8], slots: &mut [u16]) -> (usize, usize);
}

/// Byte by byte.
pub struct ByBytes;

impl Feeding for ByBytes {
    const NAME: &'static str = "natural version by bytes";

    fn feed(receiver: &mut Receiver, bytes: &[u8], slots: &mut [u16]) -> (usize, usize) {
        receiver.feed_bytes(bytes, slots)
    }
}

/// Two bytes a frame.
pub struct ByPairs;

impl Feeding for ByPairs {
    const NAME: &'static str = "natural version by two bytes";

    fn feed(receiver: &mut Receiver, bytes: &[u8], slots: &mut [u16]) -> (usize, usize) {
        receiver.feed_pairs(bytes, slots)
    }
}

impl<F: Feeding> Lane for F {
    const NAME: &'static str = F::NAME;

    fn start(seed: u32) -> Started {
        Natural::start(seed)
    }

    fn start_with(seed: u32, alignment: u32) -> Started {
        Natural::start_with(seed, alignment)
    }

    fn sync(sender: &mut Sender) -> u8 {
        Natural::sync(sender)
    }

    fn send(sender: Sender, samples: &[u16], buf: &mut [u8]) -> Sent {
        Natural::send(sender, samples, buf)
    }

    fn fresh() -> records::Receiver {
        Natural::fresh()
    }

    fn receiver_sync(receiver: records::Receiver) -> ReceiverSynced {
        Natural::receiver_sync(receiver)
    }

    fn feed(record: records::Receiver, bytes: &[u8], slots: &mut [u16]) -> Fed {
        fed(record, |receiver| F::feed(receiver, bytes, slots))
    }

    fn feed_frames(record: records::Receiver, bytes: &[u8], slots: &mut [u16]) -> Fed {
        <Self as Lane>::feed(record, bytes, slots)
    }
}
