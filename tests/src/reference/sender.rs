//! Document 01, section Sender, with the number of alignment frames as document
//! 02's Q-7 has it, and the rows of Refusals on starting a sender and on sending.
//! One frame is built by `frame`, on lists of bits.
//!
//! A refusal is `Err` with its number and leaves the record and the buffer;
//! the zeros that document 01 gives for the other values of a refused call are
//! not repeated here.

use super::frame::{
    build, check_seed, disparity, is_clock_bit, is_running_disparity, is_state, line_bytes, next,
    toggled,
};
use crate::records::Sender;

/// "Positions 0 to 31 send alignment frames, 0xFF00 at even and 0x00FF at odd
/// ones."
pub const EVEN: u16 = 0xFF00;
pub const ODD: u16 = 0x00FF;

/// The number of alignment frames in document 01: "Positions 0 to 31".
const USUAL: u32 = 32;

/// "any even number of them from 12 to 32".
fn is_permitted(alignment: u32) -> bool {
    alignment.is_multiple_of(2) && (12..=32).contains(&alignment)
}

/// Where a position from 32 on of document 01 is with that number of alignment
/// frames: "every later position moves accordingly".
fn moved(position: u32, alignment: u32) -> u32 {
    position - USUAL + alignment
}

/// Starts with the number of alignment frames in document 01.
pub fn start(seed: u32) -> Result<Sender, u8> {
    start_with(seed, USUAL)
}

/// "Fresh: R 0, position 0, state = seed, clock bit 0." "The sender's record
/// keeps the number".
/// Refused "1: seed 0 or above 0x1FFFF; then 2: word 0x00FF", then "19 an odd
/// number or one outside 12 to 32, checked after the seed".
pub fn start_with(seed: u32, alignment: u32) -> Result<Sender, u8> {
    check_seed(seed)?;
    if !is_permitted(alignment) {
        return Err(19);
    }
    Ok(Sender {
        seed,
        state: seed,
        clock: 0,
        r: 0,
        position: 0,
        alignment,
    })
}

/// "seed (permitted), state, next clock bit, R (−16 to 16), position (0 to
/// 64). A clock bit is 0 or 1. A record is admitted when every part is in its
/// range." "a record with a number not permitted is refused with 3".
pub fn is_admitted(sender: &Sender) -> bool {
    check_seed(sender.seed).is_ok()
        && is_state(sender.state)
        && is_clock_bit(sender.clock)
        && is_running_disparity(sender.r)
        && is_permitted(sender.alignment)
        && sender.position <= moved(64, sender.alignment)
}

/// "The SYNC call lends the sender's record: state becomes the seed, clock bit
/// and position become 0. Seed and R remain." So does the number of alignment
/// frames, which the record "keeps".
/// Refused 3 for the record.
pub fn sync(sender: &mut Sender) -> Result<(), u8> {
    if !is_admitted(sender) {
        return Err(3);
    }
    sender.state = sender.seed;
    sender.clock = 0;
    sender.position = 0;
    Ok(())
}

/// The frame at an admitted sender's position. The sample is used from
/// position 64 on. The positions are document 01's, from 32 on as moved.
/// "Positions 0 to 31 send alignment frames [...] State and clock bit rest.
/// Positions 32 to 63 send frames of sample 0; from 64 on, the caller's
/// samples. After each of these the state steps and the clock bit toggles."
/// "Position rises by 1 a frame and stays at 64."
fn next_frame(sender: &mut Sender, sample: u16) -> u16 {
    let (position, alignment) = (sender.position, sender.alignment);
    if position < moved(64, alignment) {
        sender.position += 1;
    }
    if position < moved(32, alignment) {
        let frame = if position.is_multiple_of(2) {
            EVEN
        } else {
            ODD
        };
        sender.r += disparity(frame);
        return frame;
    }
    let sample = if position < moved(64, alignment) {
        0
    } else {
        sample
    };
    let built = build(sample, sender.state, sender.clock, sender.r);
    let (frame, r) = built.expect("record and sample are in range");
    sender.r = r;
    sender.state = next(sender.state).expect("the state is in range");
    sender.clock = toggled(sender.clock);
    frame
}

/// How a sending call stopped.
#[derive(Clone, Copy, Debug, PartialEq, Eq)]
pub enum Stop {
    AllSent,
    OutOfSpace,
}

/// "It reports samples taken and bytes written."
#[derive(Clone, Copy, Debug, PartialEq, Eq)]
pub struct Sending {
    pub stop: Stop,
    pub taken: usize,
    pub written: usize,
}

/// "Sending takes samples and a byte buffer. Before each frame: at position 64
/// with no sample left, stop as *all sent*; else with under two bytes left,
/// stop as *out of space*. [...] Later bytes keep their content." Position 64 is
/// the one moved.
/// Refused 3 for the record, then "before the first frame 4: any sample of the
/// list above 16383".
pub fn send(sender: &mut Sender, samples: &[u16], buf: &mut [u8]) -> Result<Sending, u8> {
    if !is_admitted(sender) {
        return Err(3);
    }
    if samples.iter().any(|sample| *sample > 16383) {
        return Err(4);
    }
    let mut taken = 0;
    let mut written = 0;
    let stop = loop {
        let is_sample = sender.position == moved(64, sender.alignment);
        if is_sample && taken == samples.len() {
            break Stop::AllSent;
        }
        if buf.len() - written < 2 {
            break Stop::OutOfSpace;
        }
        let sample = if is_sample { samples[taken] } else { 0 };
        let [low, high] = line_bytes(next_frame(sender, sample));
        buf[written] = low;
        buf[written + 1] = high;
        written += 2;
        if is_sample {
            taken += 1;
        }
    };
    Ok(Sending {
        stop,
        taken,
        written,
    })
}
