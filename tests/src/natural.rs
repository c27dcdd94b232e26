//! A third version of the sender, the receiver and the strips, written as one
//! would write them in Rust for use: integers shifted in place, a mode with its
//! data. It is the measure for the archive's speed, and is compared with the
//! slow version. So are two others of its receiver that take more than a bit at a
//! time.

mod flat;
mod frames;
mod lanes;
pub mod receiver;
pub mod sender;
pub mod strip;

pub use flat::Natural;
pub use lanes::{ByBytes, ByPairs};

/// The scrambler's next state.
fn next(state: u32) -> u32 {
    (((state << 3) ^ (state & 0x1FFF8)) & 0x1FFFF) | (state >> 14)
}

/// A frame's ones minus its zeros.
fn disparity(frame: u16) -> i32 {
    2 * frame.count_ones() as i32 - 16
}

/// Bits 13 to 0 of a state.
fn word(state: u32) -> u16 {
    (state & 0x3FFF) as u16
}
