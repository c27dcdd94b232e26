//! The archive's calls on the lane: the sender and the receiver.

use super::{fail, short, Archive, Direct, ARCHIVE};
use crate::records::{Fed, FeedCall, Lane, Receiver, ReceiverSynced, Sender, Sent, Started};

impl Lane for Archive {
    const NAME: &'static str = ARCHIVE.name;

    fn start(seed: u32) -> Started {
        (ARCHIVE.ows_start)(seed)
    }

    fn start_with(seed: u32, alignment: u32) -> Started {
        (ARCHIVE.ows_start_with)(seed, alignment)
    }

    #[track_caller]
    fn sync(sender: &mut Sender) -> u8 {
        let before = *sender;
        match ARCHIVE.sync(sender) {
            Ok(refusal) => refusal,
            Err(wrong) => fail(&format!("sync, {before:?}: {wrong}")),
        }
    }

    #[track_caller]
    fn send(sender: Sender, samples: &[u16], buf: &mut [u8]) -> Sent {
        match ARCHIVE.send(sender, samples, buf) {
            Ok(sent) => sent,
            Err(wrong) => {
                let (samples, room) = (short(samples), buf.len());
                fail(&format!(
                    "send, {sender:?}, samples {samples}, buffer of {room} bytes: {wrong}"
                ))
            }
        }
    }

    fn fresh() -> Receiver {
        (ARCHIVE.ows_fresh)()
    }

    fn receiver_sync(receiver: Receiver) -> ReceiverSynced {
        (ARCHIVE.ows_receiver_sync)(receiver)
    }

    #[track_caller]
    fn feed(receiver: Receiver, bytes: &[u8], slots: &mut [u16]) -> Fed {
        lent(FeedCall::Feed, receiver, bytes, slots)
    }

    #[track_caller]
    fn feed_frames(receiver: Receiver, bytes: &[u8], slots: &mut [u16]) -> Fed {
        lent(FeedCall::FeedFrames, receiver, bytes, slots)
    }
}

/// A feeding call, lent copies.
#[track_caller]
fn lent(call: FeedCall, receiver: Receiver, bytes: &[u8], slots: &mut [u16]) -> Fed {
    match ARCHIVE.feed_by(call, receiver, bytes, slots) {
        Ok(fed) => fed,
        Err(wrong) => {
            let (name, bytes, room) = (call.name(), short(bytes), slots.len());
            fail(&format!(
                "{name}, {receiver:?}, bytes {bytes}, {room} slots: {wrong}"
            ))
        }
    }
}

impl Lane for Direct {
    const NAME: &'static str = ARCHIVE.name;

    fn start(seed: u32) -> Started {
        Archive::start(seed)
    }

    fn start_with(seed: u32, alignment: u32) -> Started {
        Archive::start_with(seed, alignment)
    }

    fn sync(sender: &mut Sender) -> u8 {
        // SAFETY: a reference is aligned and holds for the record.
        unsafe { (ARCHIVE.ows_sync)(sender) }
    }

    fn send(sender: Sender, samples: &[u16], buf: &mut [u8]) -> Sent {
        let (taken, room) = (samples.len(), buf.len());
        // SAFETY: a slice is aligned and holds for its length.
        unsafe { (ARCHIVE.ows_send)(sender, samples.as_ptr(), taken, buf.as_mut_ptr(), room) }
    }

    fn fresh() -> Receiver {
        Archive::fresh()
    }

    fn receiver_sync(receiver: Receiver) -> ReceiverSynced {
        Archive::receiver_sync(receiver)
    }

    fn feed(receiver: Receiver, bytes: &[u8], slots: &mut [u16]) -> Fed {
        let (given, room) = (bytes.len(), slots.len());
        // SAFETY: as in `send`.
        unsafe { (ARCHIVE.ows_feed)(receiver, bytes.as_ptr(), given, slots.as_mut_ptr(), room) }
    }

    fn feed_frames(receiver: Receiver, bytes: &[u8], slots: &mut [u16]) -> Fed {
        let (given, room) = (bytes.len(), slots.len());
        let (bytes, slots) = (bytes.as_ptr(), slots.as_mut_ptr());
        // SAFETY: as in `send`.
        unsafe { (ARCHIVE.ows_feed_frames)(receiver, bytes, given, slots, room) }
    }
}
