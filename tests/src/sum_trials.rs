//! The sums that frames give a receiver, counted by themselves, and samples that
//! take a sender's R far.

use crate::archive::{fail, short};
use crate::random::Random;
use crate::records::{Receiver, Sender};
use crate::reference::frame::{next, word};

/// Running, lowest and highest sum after whole frames, from these on.
pub fn sums_after(before: [i32; 3], frames: &[u8]) -> [i32; 3] {
    let [mut sum, mut lowest, mut highest] = before;
    for frame in frames.chunks_exact(2) {
        let ones = frame[0].count_ones() + frame[1].count_ones();
        let exact = i64::from(sum) + 2 * i64::from(ones) - 16;
        sum = exact.clamp(i32::MIN.into(), i32::MAX.into()) as i32;
        lowest = lowest.min(sum);
        highest = highest.max(sum);
    }
    [sum, lowest, highest]
}

/// Demands the sums of these frames since the lock, and what Q-5 promises of
/// them: "highest minus lowest is at most 32"; both begin at 0 and have the
/// running sum between them. Gives highest minus lowest.
#[track_caller]
pub fn demand_sums(receiver: &Receiver, frames: &[u8]) -> i32 {
    let [sum, lowest, highest] = receiver.sums();
    let in_order = lowest <= 0 && 0 <= highest && lowest <= sum && sum <= highest;
    let expected = sums_after([0; 3], frames);
    if receiver.sums() != expected || !in_order || highest - lowest > 32 {
        let frames = short(frames);
        fail(&format!(
            "frames since the lock {frames}, their sums {expected:?}, but {receiver:?}"
        ));
    }
    highest - lowest
}

// ---- Samples ----

/// The samples that a sender past its sequence turns to these data.
fn samples_of(sender: &Sender, data: &[u16]) -> Vec<u16> {
    let mut state = sender.state;
    let mut sample = |data: &u16| {
        let sample = data ^ word(state);
        state = next(state).expect("the state is in range");
        sample
    };
    data.iter().map(&mut sample).collect()
}

/// Samples whose data are all zeros, all ones, or these and others in any order.
pub fn unbalanced(sender: &Sender, length: usize, random: &mut Random) -> Vec<u16> {
    let picks: &[u16] = random.pick(&[
        &[0],
        &[0x3FFF],
        &[0, 0x3FFF],
        &[0, 0x3FFF, 0x00FF, 0x3F00, 1, 0x1FFF],
    ]);
    let data: Vec<u16> = (0..length).map(|_| random.pick(picks)).collect();
    samples_of(sender, &data)
}

/// Samples that take R from one end of its range to the other and back, in
/// frames that are not inverted: with clock bit 0 a frame has up to 14 ones,
/// with clock bit 1 up to 15.
pub fn swinging(sender: &Sender, length: usize) -> Vec<u16> {
    let (mut r, mut clock) = (sender.r, sender.clock as i32);
    // An odd R stays odd.
    let mut end = 16 - r.rem_euclid(2);
    let mut data = Vec::new();
    for _ in 0..length {
        if r == end {
            end = -end;
        }
        let disparity = (end - r).clamp(2 * clock - 16, 2 * clock + 12);
        data.push((1 << ((disparity + 16) / 2 - clock)) - 1);
        (r, clock) = (r + disparity, 1 - clock);
    }
    samples_of(sender, &data)
}
