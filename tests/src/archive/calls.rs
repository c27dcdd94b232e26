//! The functions of `include/owsopel.h` as a table, so that the archive, and
//! versions with a known mistake, are run by the same code; and calls of them
//! on copies between guard elements.

use super::lending::{lend, Lent};
use crate::answers::{Built, Content, Converted, Reading, Sampled, Stepped, Written};
use crate::records::{Fed, FeedCall, Receiver, ReceiverSynced, Sender, Sent, Started};

/// A call that writes a strip.
pub type WriteStrip = unsafe extern "C" fn(u8, *const u16, usize, *mut u8, usize) -> Written;

/// A call that converts a strip.
pub type ConvertStrip = unsafe extern "C" fn(*const u8, usize, *mut u8, usize) -> Converted;

/// A feeding call.
pub type Feed = unsafe extern "C" fn(Receiver, *const u8, usize, *mut u16, usize) -> Fed;

/// One version's functions, by their names in the header.
#[derive(Clone, Copy)]
pub struct Calls {
    /// What a report calls this version.
    pub name: &'static str,
    pub ows_next: extern "C" fn(u32) -> Stepped,
    pub ows_check_seed: extern "C" fn(u32) -> u8,
    pub ows_lane_seed: extern "C" fn(u8) -> u32,
    pub ows_disparity: extern "C" fn(u16) -> i32,
    pub ows_build: extern "C" fn(u16, u32, u32, i32) -> Built,
    pub ows_read: extern "C" fn(u16) -> Content,
    pub ows_read_sample: extern "C" fn(u16, u32) -> Sampled,
    pub ows_start: extern "C" fn(u32) -> Started,
    pub ows_start_with: extern "C" fn(u32, u32) -> Started,
    pub ows_sync: unsafe extern "C" fn(*mut Sender) -> u8,
    pub ows_send: unsafe extern "C" fn(Sender, *const u16, usize, *mut u8, usize) -> Sent,
    pub ows_fresh: extern "C" fn() -> Receiver,
    pub ows_receiver_sync: extern "C" fn(Receiver) -> ReceiverSynced,
    pub ows_feed: Feed,
    pub ows_feed_frames: Feed,
    pub ows_write_strip: WriteStrip,
    pub ows_write_short_strip: WriteStrip,
    pub ows_read_strip: unsafe extern "C" fn(*const u8, usize, *mut u16, usize) -> Reading,
    pub ows_check_strip: unsafe extern "C" fn(*const u8, usize) -> Reading,
    pub ows_shorten_strip: ConvertStrip,
    pub ows_expand_strip: ConvertStrip,
}

// SAFETY: the types are those of the header; a `safe` call takes numbers and
// gives numbers.
unsafe extern "C" {
    safe fn ows_next(state: u32) -> Stepped;
    safe fn ows_check_seed(seed: u32) -> u8;
    safe fn ows_lane_seed(lane: u8) -> u32;
    safe fn ows_disparity(frame: u16) -> i32;
    safe fn ows_build(sample: u16, state: u32, clock: u32, r: i32) -> Built;
    safe fn ows_read(frame: u16) -> Content;
    safe fn ows_read_sample(frame: u16, state: u32) -> Sampled;
    safe fn ows_start(seed: u32) -> Started;
    safe fn ows_start_with(seed: u32, alignment: u32) -> Started;
    fn ows_sync(sender: *mut Sender) -> u8;
    fn ows_send(
        sender: Sender,
        samples: *const u16,
        samples_len: usize,
        buf: *mut u8,
        buf_len: usize,
    ) -> Sent;
    safe fn ows_fresh() -> Receiver;
    safe fn ows_receiver_sync(receiver: Receiver) -> ReceiverSynced;
    fn ows_feed(
        receiver: Receiver,
        bytes: *const u8,
        bytes_len: usize,
        slots: *mut u16,
        slots_len: usize,
    ) -> Fed;
    fn ows_feed_frames(
        receiver: Receiver,
        bytes: *const u8,
        bytes_len: usize,
        slots: *mut u16,
        slots_len: usize,
    ) -> Fed;
    fn ows_write_strip(
        lane: u8,
        items: *const u16,
        items_len: usize,
        buf: *mut u8,
        buf_len: usize,
    ) -> Written;
    fn ows_write_short_strip(
        lane: u8,
        items: *const u16,
        items_len: usize,
        buf: *mut u8,
        buf_len: usize,
    ) -> Written;
    fn ows_read_strip(
        bytes: *const u8,
        bytes_len: usize,
        slots: *mut u16,
        slots_len: usize,
    ) -> Reading;
    fn ows_check_strip(bytes: *const u8, bytes_len: usize) -> Reading;
    fn ows_shorten_strip(
        bytes: *const u8,
        bytes_len: usize,
        buf: *mut u8,
        buf_len: usize,
    ) -> Converted;
    fn ows_expand_strip(
        bytes: *const u8,
        bytes_len: usize,
        buf: *mut u8,
        buf_len: usize,
    ) -> Converted;
}

/// The archive's functions.
pub const ARCHIVE: Calls = Calls {
    name: "archive",
    ows_next,
    ows_check_seed,
    ows_lane_seed,
    ows_disparity,
    ows_build,
    ows_read,
    ows_read_sample,
    ows_start,
    ows_start_with,
    ows_sync,
    ows_send,
    ows_fresh,
    ows_receiver_sync,
    ows_feed,
    ows_feed_frames,
    ows_write_strip,
    ows_write_short_strip,
    ows_read_strip,
    ows_check_strip,
    ows_shorten_strip,
    ows_expand_strip,
};

/// Calls on copies between guard elements; the caller's buffer then holds what
/// the copy holds. `Err` tells what was altered that must not be.
impl Calls {
    pub fn sync(&self, sender: &mut Sender) -> Result<u8, String> {
        let mut lent = Lent::new(&words(sender));
        // SAFETY: the six words are aligned as the record is, hold for its
        // length, and nothing else uses them during the call.
        let refusal = unsafe { (self.ows_sync)(lent.pointer().cast()) };
        lent.check_guards("the record")
            .map_err(|altered| format!("{altered}; the call gave {refusal}"))?;
        *sender = of_words(lent.content());
        Ok(refusal)
    }

    pub fn send(&self, sender: Sender, samples: &[u16], buf: &mut [u8]) -> Result<Sent, String> {
        let (most, room) = (samples.len(), buf.len());
        // SAFETY: `lend` gives pointers that are aligned and hold for their
        // lengths, to copies that nothing else uses during the call.
        let sent = lend(
            ("the samples", samples),
            ("the buffer", buf),
            |samples, taken, buf, room| unsafe {
                (self.ows_send)(sender, samples, taken, buf, room)
            },
        )?;
        if sent.taken > most || sent.written > room {
            return Err(format!("more than was lent: {sent:?}"));
        }
        Ok(sent)
    }

    pub fn feed(&self, receiver: Receiver, bytes: &[u8], slots: &mut [u16]) -> Result<Fed, String> {
        self.feed_by(FeedCall::Feed, receiver, bytes, slots)
    }

    pub fn feed_frames(
        &self,
        receiver: Receiver,
        bytes: &[u8],
        slots: &mut [u16],
    ) -> Result<Fed, String> {
        self.feed_by(FeedCall::FeedFrames, receiver, bytes, slots)
    }

    /// The one feeding call or the other.
    pub fn feed_by(
        &self,
        call: FeedCall,
        receiver: Receiver,
        bytes: &[u8],
        slots: &mut [u16],
    ) -> Result<Fed, String> {
        let (most, room) = (bytes.len(), slots.len());
        let feed = match call {
            FeedCall::Feed => self.ows_feed,
            FeedCall::FeedFrames => self.ows_feed_frames,
        };
        // SAFETY: as in `send`.
        let fed = lend(
            ("the bytes", bytes),
            ("the slots", slots),
            |bytes, given, slots, room| unsafe { feed(receiver, bytes, given, slots, room) },
        )?;
        if fed.bytes > most || fed.slots > room {
            return Err(format!("more than was lent: {fed:?}"));
        }
        Ok(fed)
    }

    pub fn write_strip(&self, lane: u8, items: &[u16], buf: &mut [u8]) -> Result<Written, String> {
        write_by(self.ows_write_strip, lane, items, buf)
    }

    pub fn write_short_strip(
        &self,
        lane: u8,
        items: &[u16],
        buf: &mut [u8],
    ) -> Result<Written, String> {
        write_by(self.ows_write_short_strip, lane, items, buf)
    }

    pub fn read_strip(&self, bytes: &[u8], slots: &mut [u16]) -> Result<Reading, String> {
        // SAFETY: as in `send`.
        lend(
            ("the bytes", bytes),
            ("the slots", slots),
            |bytes, given, slots, room| unsafe { (self.ows_read_strip)(bytes, given, slots, room) },
        )
    }

    pub fn check_strip(&self, bytes: &[u8]) -> Result<Reading, String> {
        // SAFETY: as in `send`.
        lend(
            ("the bytes", bytes),
            ("no slots", &mut [0_u16; 0]),
            |bytes, given, _, _| unsafe { (self.ows_check_strip)(bytes, given) },
        )
    }

    pub fn shorten_strip(&self, bytes: &[u8], buf: &mut [u8]) -> Result<Converted, String> {
        convert_by(self.ows_shorten_strip, bytes, buf)
    }

    pub fn expand_strip(&self, bytes: &[u8], buf: &mut [u8]) -> Result<Converted, String> {
        convert_by(self.ows_expand_strip, bytes, buf)
    }
}

/// Writes a strip by the one writing call or the other.
fn write_by(call: WriteStrip, lane: u8, items: &[u16], buf: &mut [u8]) -> Result<Written, String> {
    // SAFETY: as in `send`.
    lend(
        ("the items", items),
        ("the buffer", buf),
        |items, given, buf, room| unsafe { call(lane, items, given, buf, room) },
    )
}

/// Converts a strip by the one converting call or the other.
fn convert_by(call: ConvertStrip, bytes: &[u8], buf: &mut [u8]) -> Result<Converted, String> {
    // SAFETY: as in `send`.
    lend(
        ("the bytes", bytes),
        ("the buffer", buf),
        |bytes, given, buf, room| unsafe { call(bytes, given, buf, room) },
    )
}

/// The words of a sender's record, in its order.
fn words(sender: &Sender) -> [u32; 6] {
    [
        sender.seed,
        sender.state,
        sender.clock,
        sender.r as u32,
        sender.position,
        sender.alignment,
    ]
}

/// The sender's record of six words.
fn of_words(words: &[u32]) -> Sender {
    Sender {
        seed: words[0],
        state: words[1],
        clock: words[2],
        r: words[3] as i32,
        position: words[4],
        alignment: words[5],
    }
}
