//! Reports of a difference on the lane, each with the shortest buffer or the
//! fewest bytes that show one.

use crate::archive::short;
use crate::comparison::first_difference;
use crate::records::{Fed, FeedCall, Lane, Receiver, Sender, FEED_CALLS};
use crate::reference::calls as slow;

/// A difference from the slow version in sending.
pub fn report_send<L: Lane>(record: Sender, samples: &[u16], before: &[u8]) -> String {
    for room in 0..=before.len() {
        let before = &before[..room];
        let mut buf = before.to_vec();
        let answer = L::send(record, samples, &mut buf);
        let mut expected_buf = before.to_vec();
        let expected = slow::send(record, samples, &mut expected_buf);
        if answer == expected && buf == expected_buf {
            continue;
        }
        return format!(
            "send, {record:?}, samples {}, buffer {}\n  {}: {answer:?}, buffer {}\n  \
             slow version: {expected:?}, buffer {}\n  first difference in the buffer: {:?}",
            short(samples),
            short(before),
            L::NAME,
            short(&buf),
            short(&expected_buf),
            first_difference(&buf, &expected_buf),
        );
    }
    "a difference in sending that does not come again".to_string()
}

/// What feeds, with its name in a report.
type Feeding<'a> = (String, &'a dyn Fn(Receiver, &[u8], &mut [u16]) -> Fed);

/// A feeding call's name in a report.
pub fn name_of<L: Lane>(call: FeedCall) -> String {
    format!("{}, {}", L::NAME, call.name())
}

/// A difference of a feeding call from the slow version.
pub fn report_feed<L: Lane>(
    call: FeedCall,
    record: Receiver,
    bytes: &[u8],
    before: &[u16],
) -> String {
    let version = |record, bytes: &[u8], slots: &mut [u16]| L::feed_by(call, record, bytes, slots);
    let sides: [Feeding; 2] = [
        (name_of::<L>(call), &version),
        ("slow version".to_string(), &slow::feed),
    ];
    report(sides, record, bytes, before)
}

/// A difference of the two feeding calls from each other.
pub fn report_calls<L: Lane>(record: Receiver, bytes: &[u8], before: &[u16]) -> String {
    let [first, second] = FEED_CALLS.map(name_of::<L>);
    let sides: [Feeding; 2] = [(first, &L::feed), (second, &L::feed_frames)];
    report(sides, record, bytes, before)
}

/// A difference between two that must give the same.
fn report(sides: [Feeding; 2], record: Receiver, bytes: &[u8], before: &[u16]) -> String {
    for length in 0..=bytes.len() {
        let bytes = &bytes[..length];
        let given = sides.each_ref().map(|(_, feed)| {
            let mut slots = before.to_vec();
            (feed(record, bytes, &mut slots), slots)
        });
        let [(answer, slots), (other, other_slots)] = &given;
        if given[0] == given[1] {
            continue;
        }
        return format!(
            "feed, {record:?}, bytes {}, slots {}\n  {}: {answer:?}, slots {}\n  \
             {}: {other:?}, slots {}\n  first difference in the slots: {:?}",
            short(bytes),
            short(before),
            sides[0].0,
            short(slots),
            sides[1].0,
            short(other_slots),
            first_difference(slots, other_slots),
        );
    }
    "a difference in feeding that does not come again".to_string()
}
