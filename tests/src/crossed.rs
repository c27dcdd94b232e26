//! A line with its two wires swapped, which Q-2 of document 02 calls crossed: it
//! arrives with every bit inverted. Two admitted records are each other's
//! crossed record when one holds the inverted bits of the other. From them a
//! call on a line and the same call on the crossed line give the same answer
//! and the same content of every slot, and leave such two records again.

use crate::archive::{fail, short};
use crate::lane_reports::name_of;
use crate::records::{Fed, FeedCall, Lane, Receiver, ReceiverSynced, FLASH};

/// The bytes of the crossed line.
pub fn inverted(bytes: &[u8]) -> Vec<u8> {
    bytes.iter().map(|byte| 255 - byte).collect()
}

/// The crossed record of an admitted one: the bits held are inverted, Flash has
/// the other frame, and all that was read from a frame is the same. A frame has
/// as many ones as its inverse has zeros, so the sums change their sign.
pub fn crossed(record: &Receiver) -> Receiver {
    let places = 1_u64.checked_shl(record.count).unwrap_or(0);
    let frame = match record.mode {
        FLASH => record.frame ^ 0xFFFF,
        _ => record.frame,
    };
    let [sum, lowest, highest] = record.sums();
    Receiver {
        bits: record.bits ^ places.wrapping_sub(1) as u32,
        frame,
        ..record.with_sums([sum, highest, lowest].map(i32::saturating_neg))
    }
}

/// Whether a record's sums are those of the other with the other sign. The least
/// number of 32 signed bits has none.
fn have_other_sign([plain, other]: [&Receiver; 2]) -> bool {
    let [sum, lowest, highest] = plain.sums().map(i32::checked_neg);
    [sum, highest, lowest] == other.sums().map(Some)
}

/// The record that a call on the crossed line must leave, from these two records,
/// the plain one first, where the plain line left `plain`. The sums must have the
/// other sign if they had before and neither the lowest nor the highest is at a
/// limit; else they are those of the record given.
pub fn demanded(starts: [&Receiver; 2], plain: &Receiver, given: &Receiver) -> Receiver {
    let record = crossed(plain);
    let is_inside = plain.lowest > i32::MIN && plain.highest < i32::MAX;
    match have_other_sign(starts) && is_inside {
        true => record,
        false => record.with_sums(given.sums()),
    }
}

/// The answer that a feeding call on the crossed line must give, where the plain
/// line's call gave `plain`.
pub fn demanded_fed(starts: [&Receiver; 2], plain: &Fed, given: &Receiver) -> Fed {
    Fed {
        receiver: demanded(starts, &plain.receiver, given),
        ..*plain
    }
}

/// The same of the SYNC call.
pub fn demanded_synced(
    starts: [&Receiver; 2],
    plain: &ReceiverSynced,
    given: &Receiver,
) -> ReceiverSynced {
    ReceiverSynced {
        receiver: demanded(starts, &plain.receiver, given),
        ..*plain
    }
}

// ---- A version's calls on the crossed line ----

/// Demands that a version's SYNC call on the crossed record answers as it did
/// on an admitted record.
#[track_caller]
pub fn sync_crossed<L: Lane>(record: Receiver, plain: &ReceiverSynced) {
    let start = crossed(&record);
    let given = L::receiver_sync(start);
    let expected = demanded_synced([&record, &start], plain, &given.receiver);
    if given != expected {
        let name = L::NAME;
        fail(&format!(
            "receiver's sync, {record:?}\n  {name}: {plain:?}\n  crossed, {start:?}\n  \
             {name}: {given:?}\n  demanded: {expected:?}"
        ));
    }
}

/// Demands that a version's feeding call on the crossed line answers as it did
/// on the plain line, from an admitted record and these slots.
#[track_caller]
pub fn feed_crossed<L: Lane>(
    call: FeedCall,
    record: Receiver,
    bytes: &[u8],
    before: &[u16],
    (plain, slots): (&Fed, &[u16]),
) {
    let (start, mut crossed_slots) = (crossed(&record), before.to_vec());
    let given = L::feed_by(call, start, &inverted(bytes), &mut crossed_slots);
    let expected = demanded_fed([&record, &start], plain, &given.receiver);
    if given != expected || crossed_slots != slots {
        fail(&report::<L>(call, record, bytes, before));
    }
}

/// A difference between the plain and the crossed line, with the fewest bytes
/// that show one.
fn report<L: Lane>(call: FeedCall, record: Receiver, bytes: &[u8], before: &[u16]) -> String {
    for length in 0..=bytes.len() {
        let (bytes, start) = (&bytes[..length], crossed(&record));
        let (mut slots, mut crossed_slots) = (before.to_vec(), before.to_vec());
        let plain = L::feed_by(call, record, bytes, &mut slots);
        let given = L::feed_by(call, start, &inverted(bytes), &mut crossed_slots);
        let expected = demanded_fed([&record, &start], &plain, &given.receiver);
        if given == expected && crossed_slots == slots {
            continue;
        }
        return format!(
            "feed, {record:?}, bytes {}, slots {}\n  {name}: {plain:?}, slots {slots}\n  \
             crossed, {start:?}, bytes {}\n  {name}: {given:?}, slots {}\n  \
             demanded: {expected:?}, slots {slots}",
            short(bytes),
            short(before),
            short(&inverted(bytes)),
            short(&crossed_slots),
            name = name_of::<L>(call),
            slots = short(&slots),
        );
    }
    "a difference on the crossed line that does not come again".to_string()
}
