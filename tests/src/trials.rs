//! Trials of what the lane promises, on one version's calls. What must hold is
//! checked by itself; the slow version runs beside where the comparison's
//! `slow` is set.

use std::ops::Range;

use crate::archive::{fail, short};
use crate::lane_comparison::LaneComparison;
use crate::lane_records::{self, sequence_bytes};
use crate::lines::{spaced_bursts, touch, Line, BETWEEN};
use crate::long_lines::{samples, size};
use crate::records::{Lane, Receiver, Sender, ALL_SENT, LOCKED, OUT_OF_SPACE};
use crate::reference::strip::GAP;
use crate::sum_trials::demand_sums;

/// The SYNC call on any admitted sender with that number of alignment frames,
/// then sending calls that write the sequence and so many samples. The bytes
/// written, the samples taken, and the sender's record after.
#[track_caller]
pub fn sent_line<L: Lane>(
    comparison: &mut LaneComparison<L>,
    alignment: u32,
    length: usize,
) -> (Vec<u8>, Vec<u16>, Sender) {
    let mut sender = lane_records::sender_with(alignment, &mut comparison.random);
    if comparison.sync(&mut sender) != 0 {
        fail("the SYNC call on an admitted sender was refused");
    }
    let samples = samples(length, &mut comparison.random);
    let whole = sequence_bytes(alignment) + 2 * length;
    let (line, taken) = send_bytes(comparison, &mut sender, &samples, whole);
    let (written, aligned) = (line.len(), alignment_frames(&line));
    if (written, taken, aligned) != (whole, length, alignment) {
        fail(&format!(
            "{alignment} alignment frames, {length} samples: {aligned} alignment frames sent, \
             {taken} samples taken, {written} bytes written"
        ));
    }
    (line, samples, sender)
}

/// The alignment frames that a line starts with. The frame after them is not
/// like them: "such a seed would make the first scrambled frame look like
/// alignment".
pub fn alignment_frames(line: &[u8]) -> u32 {
    let in_turn = [[0x00, 0xFF], [0xFF, 0x00]].into_iter().cycle();
    let frames = line.chunks_exact(2).zip(in_turn);
    frames.take_while(|(frame, sent)| frame == sent).count() as u32
}

/// Sending calls that write so many bytes, some of them in pieces and with
/// refused ones between. The bytes, and the number of samples taken.
#[track_caller]
fn send_bytes<L: Lane>(
    comparison: &mut LaneComparison<L>,
    sender: &mut Sender,
    samples: &[u16],
    whole: usize,
) -> (Vec<u8>, usize) {
    let in_pieces = comparison.random.one_in(8);
    let (mut line, mut taken) = (Vec::new(), 0);
    while line.len() < whole {
        let room = match in_pieces {
            true => size(whole, &mut comparison.random),
            false => whole,
        };
        if in_pieces && comparison.random.one_in(4) {
            comparison.send(sender, &[16384], room);
        }
        let (sent, bytes) = comparison.send(sender, &samples[taken..], room);
        taken += sent.taken;
        line.extend(bytes);
        let stopped_well = match sent.stop {
            OUT_OF_SPACE => room - sent.written <= 1,
            _ => sent.stop == ALL_SENT && line.len() == whole,
        };
        if !stopped_well {
            fail(&format!("a sending call to {room} bytes gave {sent:?}"));
        }
    }
    (line, taken)
}

/// Feeds a whole line in pieces of any sizes; the slots used, end to end.
/// "None is refused, and one with a slot for every byte uses all its bytes."
#[track_caller]
pub fn feed_line<L: Lane>(
    comparison: &mut LaneComparison<L>,
    receiver: &mut Receiver,
    line: &[u8],
) -> Vec<u16> {
    watched_line(comparison, receiver, line, |_, _| {})
}

/// The same, with each call's record watched beside the bytes used so far.
#[track_caller]
pub fn watched_line<L: Lane>(
    comparison: &mut LaneComparison<L>,
    receiver: &mut Receiver,
    line: &[u8],
    mut watch: impl FnMut(&Receiver, usize),
) -> Vec<u16> {
    let in_pieces = comparison.random.one_in(3);
    let mut items = Vec::new();
    let mut rest = line;
    while !rest.is_empty() {
        let (length, room) = match in_pieces {
            true => (
                size(rest.len(), &mut comparison.random),
                size(rest.len(), &mut comparison.random),
            ),
            false => (rest.len(), rest.len()),
        };
        let (fed, slots) = comparison.feed(receiver, &rest[..length], room);
        if fed.refusal != 0 || (room >= length && fed.bytes != length) {
            fail(&format!("feeding {length} bytes, {room} slots: {fed:?}"));
        }
        items.extend(slots);
        rest = &rest[fed.bytes..];
        watch(receiver, line.len() - rest.len());
    }
    items
}

/// A record of Hunt with the totals of samples and gaps after these items.
fn totals_after(before: &Receiver, items: &[u16]) -> Receiver {
    let gaps = items.iter().filter(|item| **item == GAP).count() as u64;
    Receiver {
        samples: before.samples.saturating_add(items.len() as u64 - gaps),
        gaps: before.gaps.saturating_add(gaps),
        ..Receiver::default()
    }
}

/// Any admitted record of a mode, noise, one undamaged sequence with that number
/// of alignment frames, and samples: the receiver must be Locked after it, with
/// the sender's next state and clock bit, no frame faulty, and no item after the
/// sequence wrong; from the lock on its sums must be those of the frames. Gives
/// the alignment frames that were sent.
#[track_caller]
pub fn lock_from_any_record<L: Lane>(
    comparison: &mut LaneComparison<L>,
    mode: u32,
    alignment: u32,
) -> u32 {
    let before = lane_records::receiver(mode, &mut comparison.random);
    let most = comparison.random.pick(&[9, 300, 300, 300]);
    let noise = comparison.random.below(most);
    let length = comparison.random.below(9);
    let (sent, samples, sender) = sent_line(comparison, alignment, length);
    let mut line = Line::default();
    line.noise(noise, &mut comparison.random);
    line.bytes(&sent);
    let (line, after) = line.end(&mut comparison.random);

    let mut receiver = before;
    let start = noise + 8 * sequence_bytes(alignment);
    let items = watched_line(comparison, &mut receiver, &line, |receiver, used| {
        if let Some(bits) = (8 * used).checked_sub(start) {
            let frames = &sent[sequence_bytes(alignment)..][..bits / 16 * 2];
            demand_sums(receiver, frames);
        }
    });
    let last = line[line.len() - 1];
    let expected = Receiver {
        mode: LOCKED,
        count: after,
        bits: u32::from(last).checked_shr(8 - after).unwrap_or(0),
        state: sender.state,
        clock: sender.clock,
        losses: receiver.losses,
        ..totals_after(&before, &items).with_sums(receiver.sums())
    };
    if receiver == expected && items.ends_with(&samples) {
        return alignment_frames(&sent);
    }
    fail(&format!(
        "from {before:?}, {noise} bits of noise, the sequence with {alignment} alignment frames, \
         samples {}, {after} bits; line {}\n  after it {receiver:?}, items {}",
        short(&samples),
        short(&line),
        short(&items),
    ));
}

/// Any admitted record, the sequence with that number of alignment frames,
/// samples in frames touched by spaced bursts. What demand 3 and Q-3 say of them
/// must hold, and lock is never lost.
#[track_caller]
pub fn spaced_bursts_on_a_line<L: Lane>(
    comparison: &mut LaneComparison<L>,
    alignment: u32,
    length: usize,
) {
    let mode = comparison.random.pick(&lane_records::MODES);
    let mut receiver = lane_records::receiver(mode, &mut comparison.random);
    let (mut line, samples, _) = sent_line(comparison, alignment, length);
    let mut touched = line.split_off(sequence_bytes(alignment));
    let apart = comparison.random.pick(&[1, 3, 20]);
    let bursts = spaced_bursts(length, BETWEEN, apart, &mut comparison.random);
    for frame in bursts.iter().cloned().flatten() {
        touch(
            &mut touched[2 * frame..2 * frame + 2],
            &mut comparison.random,
        );
    }
    feed_line(comparison, &mut receiver, &line);
    let locked = receiver;
    let items = feed_line(comparison, &mut receiver, &touched);

    let report = |what: &str| -> ! {
        fail(&format!(
            "{what}\n  from {locked:?}, bursts {bursts:?}, samples {}, frames {}\n  \
             after it {receiver:?}, items {}",
            short(&samples),
            short(&touched),
            short(&items),
        ))
    };
    if locked.mode != LOCKED || receiver.mode != LOCKED || receiver.losses != locked.losses {
        report("lock was lost");
    }
    if items.len() != length {
        report("not one item for each frame");
    }
    if let Some(what) = judge_bursts(&samples, &items, &bursts) {
        report(&what);
    }
}

/// What is wrong with the items of bursts, if anything: a burst spoils at most
/// as many items as it has frames, so "at most two items", and "no untouched
/// frame yields a gap or a false sample".
fn judge_bursts(samples: &[u16], items: &[u16], bursts: &[Range<usize>]) -> Option<String> {
    let wrong =
        |frames: Range<usize>| -> usize { frames.filter(|k| items[*k] != samples[*k]).count() };
    let first = bursts.first().map_or(items.len(), |burst| burst.start);
    if wrong(0..first) > 0 {
        return Some("a wrong item before the first burst".to_string());
    }
    for (index, burst) in bursts.iter().enumerate() {
        let next = bursts.get(index + 1).map_or(items.len(), |next| next.start);
        let number = wrong(burst.start..next);
        if number > burst.len() {
            return Some(format!("{number} wrong items in the burst {burst:?}"));
        }
        if wrong(burst.end..next) > 0 {
            return Some(format!("a wrong item between {burst:?} and {next}"));
        }
    }
    None
}
