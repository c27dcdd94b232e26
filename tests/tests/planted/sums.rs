//! Mistakes in a frame's balance and in the receiver's sums, which document 02's
//! Q-5 brought.

use std::marker::PhantomData;

use owsopel_tests::answers::Content;
use owsopel_tests::archive::{Calls, Feed};
use owsopel_tests::records::{self, Fed, ReceiverSynced};
use owsopel_tests::reference::calls;
use owsopel_tests::reference::frame::read;
use owsopel_tests::reference::functions::feed;
use owsopel_tests::reference::receiver::{Mode, Receiver};
use owsopel_tests::reference::strip::GAP;
use owsopel_tests::reference::sums::Sums;

use super::receiver::{ended, feed_by, Rules};
use super::{mistake, Mistake, SLOW};

// ---- One frame ----

/// The ones minus the zeros once the inversion is undone.
fn undone(content: Content) -> i32 {
    match content.inverted {
        0 => content.disparity,
        _ => -content.disparity,
    }
}

extern "C" fn read_undone(frame: u16) -> Content {
    let content = read(frame);
    Content {
        disparity: undone(content),
        ..content
    }
}

extern "C" fn read_wrong_way(frame: u16) -> Content {
    let content = read(frame);
    Content {
        inverted: 1 - content.inverted,
        ..content
    }
}

// ---- Feeding ----

/// A frame that a bit has ended: what it holds, the modes before and after it,
/// and its item.
struct Judged {
    content: Content,
    was: Mode,
    is: Mode,
    item: Option<u16>,
}

impl Judged {
    fn in_locked(&self) -> bool {
        matches!(self.was, Mode::Locked { .. })
    }

    fn locks(&self) -> bool {
        !self.in_locked() && matches!(self.is, Mode::Locked { .. })
    }

    fn loses_lock(&self) -> bool {
        self.in_locked() && self.is == Mode::Hunt
    }
}

/// The sums after a frame, from those before it and the right ones after it.
trait Summing {
    fn sums(before: Sums, after: Sums, judged: &Judged) -> Sums;
}

/// The rules but for the sums.
struct By<S>(PhantomData<S>);

impl<S: Summing> Rules for By<S> {
    fn read_bit(receiver: &mut Receiver, bit: bool) -> Option<u16> {
        let (before, was, frame) = (receiver.sums, receiver.mode, ended(receiver, bit));
        let item = receiver.read_bit(bit);
        if let Some(frame) = frame {
            let judged = Judged {
                content: read(frame),
                was,
                is: receiver.mode,
                item,
            };
            receiver.sums = S::sums(before, receiver.sums, &judged);
        }
        item
    }
}

/// Mistakes each by its name, with the sums where its condition holds.
macro_rules! summing {
    ($($name:ident: $condition:expr => $sums:expr;)*) => {
        $(struct $name;

        impl Summing for $name {
            fn sums(before: Sums, after: Sums, judged: &Judged) -> Sums {
                let holds: fn(&Judged) -> bool = $condition;
                let wrong: fn(Sums, Sums, &Judged) -> Sums = $sums;
                match holds(judged) {
                    true => wrong(before, after, judged),
                    false => after,
                }
            }
        })*
    };
}

/// Sums with a frame's disparity added.
fn added(mut sums: Sums, disparity: i32) -> Sums {
    sums.add(disparity);
    sums
}

summing! {
    LockKeepsAll: Judged::locks => |before, _, _| before;
    LockClearsSum: Judged::locks => |before, _, _| Sums { running: 0, ..before };
    ProveCounts: |judged| matches!(judged.was, Mode::Prove { .. })
        => |_, after, judged| added(after, judged.content.disparity);
    LockingFrameCounts: Judged::locks
        => |_, after, judged| added(after, judged.content.disparity);
    LosingFrameLost: Judged::loses_lock => |before, _, _| before;
    LossClears: Judged::loses_lock => |_, _, _| Sums::default();
    FaultyFrameLost: |judged| judged.item == Some(GAP) => |before, _, _| before;
    InversionUndone: Judged::in_locked
        => |before, _, judged| added(before, undone(judged.content));
    LowestIsLatest: Judged::in_locked
        => |_, after, _| Sums { lowest: after.running, ..after };
    LowestRests: Judged::in_locked
        => |before, after, _| Sums { lowest: before.lowest, ..after };
    HighestIsLatest: Judged::in_locked
        => |_, after, _| Sums { highest: after.running, ..after };
    HighestRests: Judged::in_locked
        => |before, after, _| Sums { highest: before.highest, ..after };
    SumWraps: Judged::in_locked => |before, _, judged| {
        let running = before.running.wrapping_add(judged.content.disparity);
        added(Sums { running, ..before }, 0)
    };
}

/// Refuses a record with the lowest sum above the highest.
unsafe extern "C" fn feed_in_order(
    record: records::Receiver,
    bytes: *const u8,
    bytes_len: usize,
    slots: *mut u16,
    slots_len: usize,
) -> Fed {
    if record.lowest <= record.highest {
        return feed(record, bytes, bytes_len, slots, slots_len);
    }
    Fed {
        refusal: 3,
        receiver: record,
        bytes: 0,
        slots: 0,
    }
}

// ---- SYNC ----

extern "C" fn sync_in_order(receiver: records::Receiver) -> ReceiverSynced {
    match receiver.lowest <= receiver.highest {
        true => calls::receiver_sync(receiver),
        false => ReceiverSynced {
            refusal: 3,
            receiver,
        },
    }
}

extern "C" fn sync_clearing(receiver: records::Receiver) -> ReceiverSynced {
    let mut synced = calls::receiver_sync(receiver);
    if synced.refusal == 0 {
        synced.receiver = synced.receiver.with_sums([0; 3]);
    }
    synced
}

// ---- The versions ----

fn in_read(name: &'static str, ows_read: extern "C" fn(u16) -> Content) -> Mistake {
    mistake(Calls { ows_read, ..SLOW }, name, 1, "ows_read: frame")
}

fn in_sync(
    name: &'static str,
    ows_receiver_sync: extern "C" fn(records::Receiver) -> ReceiverSynced,
) -> Mistake {
    let calls = Calls {
        ows_receiver_sync,
        ..SLOW
    };
    mistake(calls, name, 2, "ows_receiver_sync")
}

fn in_feed(name: &'static str, ows_feed: Feed, told: &'static str) -> Mistake {
    mistake(Calls { ows_feed, ..SLOW }, name, 2, told)
}

/// Feeding with a mistake in the sums.
fn in_sums<S: Summing>(name: &'static str, told: &'static str) -> Mistake {
    in_feed(name, feed_by::<By<S>>, told)
}

pub fn sums_mistakes() -> Vec<Mistake> {
    vec![
        in_read("balance after the inversion, read", read_undone),
        in_read("inverted the wrong way", read_wrong_way),
        in_sums::<LockKeepsAll>("sums kept at lock", "mode: 3"),
        in_sums::<LockClearsSum>("the running sum alone cleared at lock", "mode: 3"),
        in_sums::<ProveCounts>("frames of Prove counted", "mode: 3"),
        in_sums::<LockingFrameCounts>("the frame that locks counted", "read: 31"),
        in_sums::<LosingFrameLost>("the frame that loses lock not counted", "losses: 1"),
        in_sums::<LossClears>("loss of lock clears the sums", "losses: 1"),
        in_sums::<FaultyFrameLost>("a faulty frame not counted", "gaps: 1"),
        in_sums::<InversionUndone>("balance after the inversion, fed", "mode: 4"),
        in_sums::<LowestIsLatest>("the lowest sum is the latest", "lowest: 2, highest: 2"),
        in_sums::<LowestRests>("the lowest sum rests", "lowest: -16"),
        in_sums::<HighestIsLatest>("the highest sum is the latest", "highest: -16"),
        in_sums::<HighestRests>("the highest sum rests", "sum: 2, lowest: 0, highest: 0"),
        in_sums::<SumWraps>("a sum that wraps", "sum: -2147483648"),
        in_feed(
            "lowest above highest refused, fed",
            feed_in_order,
            "lowest: 0, highest: -1",
        ),
        in_sync("lowest above highest refused, SYNC", sync_in_order),
        in_sync("SYNC clears the sums", sync_clearing),
    ]
}
