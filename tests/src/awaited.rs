//! Lines made for a receiver's record: they go on from the bits it holds, with
//! frames that its mode awaits, or with faulty ones.

use crate::lines::bytes_of;
use crate::random::Random;
use crate::records;
use crate::reference::frame::{line_bits, next, number, toggled, word};
use crate::reference::receiver::Mode;
use crate::reference::receiver_record::from_record;

/// A frame of a clock bit and data, upright or inverted.
pub fn frame(clock: u32, data: u16, random: &mut Random) -> u16 {
    let upright = 0x4000 * (clock % 2) as u16 + data;
    match random.below(2) {
        0 => upright,
        _ => !upright,
    }
}

/// The bits of frames, in the order of the line.
pub fn frame_bits(frames: &[u16]) -> Vec<bool> {
    frames.iter().flat_map(|frame| line_bits(*frame)).collect()
}

/// The record with the first of these bits held, as many as it has, and the
/// others as bytes, with bits of any kind up to a whole one.
pub fn split(
    record: records::Receiver,
    bits: &[bool],
    random: &mut Random,
) -> (records::Receiver, Vec<u8>) {
    let (held, rest) = bits.split_at(record.count as usize);
    let start = records::Receiver {
        bits: number(held),
        ..record
    };
    let mut rest = rest.to_vec();
    while !rest.len().is_multiple_of(8) {
        rest.push(random.one_in(2));
    }
    (start, bytes_of(&rest))
}

// ---- What a mode awaits ----

/// Bits with which a mode goes on: in Hunt an alignment pair, else a frame. In
/// Locked one frame in `faulty` is faulty, none where it is 0.
fn awaited(mode: Mode, faulty: usize, random: &mut Random) -> Vec<bool> {
    let data = random.below(16384) as u16;
    let awaited = match mode {
        Mode::Hunt => {
            let pair = random.pick(&[[0xFF00, 0x00FF], [0x00FF, 0xFF00]]);
            return frame_bits(&pair);
        }
        Mode::Flash { frame } if random.one_in(2) => !frame,
        Mode::Flash { .. } => frame(random.below(2) as u32, data, random),
        Mode::First { data, clock } => {
            let state = u32::from(data) + 16384 * (1 + random.below(7)) as u32;
            let after = next(state).expect("the state is in range");
            frame(toggled(clock), word(after), random)
        }
        Mode::Prove { state, clock, .. } => frame(toggled(clock), word(state), random),
        Mode::Locked { clock, .. } => {
            let is_faulty = faulty > 0 && random.one_in(faulty);
            frame(clock + u32::from(is_faulty), data, random)
        }
    };
    frame_bits(&[awaited])
}

/// An admitted record, but for the bits it holds, and at least so many bytes of
/// a line on which its mode goes on. Its bits become the line's first ones.
pub fn awaited_line(
    record: records::Receiver,
    bytes: usize,
    faulty: usize,
    random: &mut Random,
) -> (records::Receiver, Vec<u8>) {
    let none_held = records::Receiver {
        bits: 0,
        count: 0,
        ..record
    };
    let mut receiver = from_record(&none_held).expect("the record is admitted");
    let mut bits = Vec::new();
    while bits.len() < 8 * bytes + record.count as usize {
        let more = awaited(receiver.mode, faulty, random);
        for bit in &more {
            receiver.read_bit(*bit);
        }
        bits.extend(more);
    }
    split(record, &bits, random)
}
