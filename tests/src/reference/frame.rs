//! Document 01, sections Scrambler and Frame, with the rows of Refusals that
//! concern a seed, a state and one frame.
//!
//! A list of bits has bit 0 first. The xor of two bits is `!=`. A refusal is
//! `Err` with its number; the zeros that document 01 gives for the other
//! values of a refused call are not repeated here.

// Document 01 names bits by their place, and the loops below do the same.
#![allow(clippy::needless_range_loop)]

use crate::answers::Content;

// ---- Lists of bits ----

/// The lowest `N` bits of a number, bit 0 first.
/// "L(0) lowest".
pub fn bits<const N: usize>(number: u32) -> [bool; N] {
    let mut list = [false; N];
    let mut rest = number;
    for k in 0..N {
        list[k] = rest % 2 == 1;
        rest /= 2;
    }
    list
}

/// The number that a list of at most 32 bits stands for, bit 0 first.
/// "L(0) lowest".
pub fn number(list: &[bool]) -> u32 {
    let mut sum = 0;
    for k in (0..list.len()).rev() {
        sum = 2 * sum + u32::from(list[k]);
    }
    sum
}

// ---- Scrambler ----

/// "A state has 17 bits, L(0) lowest, and is 1 to 0x1FFFF."
pub fn is_state(state: u32) -> bool {
    (1..=0x1FFFF).contains(&state)
}

/// "Its word is bits 13 to 0."
pub fn word(state: u32) -> u16 {
    number(&word_bits(state)) as u16
}

/// "Its word is bits 13 to 0."
fn word_bits(state: u32) -> [bool; 14] {
    let l: [bool; 17] = bits(state);
    let mut w = [false; 14];
    w.copy_from_slice(&l[0..=13]);
    w
}

/// "Next state: N(0), N(1), N(2) are L(14), L(15), L(16); for k from 3 to 16,
/// N(k) = L(k−3) xor L(k)."
pub fn next_bits(l: [bool; 17]) -> [bool; 17] {
    let mut n = [false; 17];
    n[0] = l[14];
    n[1] = l[15];
    n[2] = l[16];
    for k in 3..=16 {
        n[k] = l[k - 3] != l[k];
    }
    n
}

/// The next state of a state given as a number; see `next_bits`.
/// Refused 3: "Any call given a state, clock bit or record, before any row
/// below: one of them outside the ranges above".
pub fn next(state: u32) -> Result<u32, u8> {
    if !is_state(state) {
        return Err(3);
    }
    Ok(number(&next_bits(bits(state))))
}

/// "A seed is permitted unless it is 0, above 0x1FFFF, or has the word
/// 0x00FF". Refused "1: seed 0 or above 0x1FFFF; then 2: word 0x00FF".
pub fn check_seed(seed: u32) -> Result<(), u8> {
    if seed == 0 || seed > 0x1FFFF {
        return Err(1);
    }
    if word(seed) == 0x00FF {
        return Err(2);
    }
    Ok(())
}

/// "Lane seeds are a constant table of 256: entry k is the first permitted
/// state found 512 × k or more steps after state 1."
pub fn lane_seed(k: u8) -> u32 {
    seed_after(512 * u32::from(k))
}

/// "the first permitted state found" that many "or more steps after state 1".
pub fn seed_after(steps: u32) -> u32 {
    let mut l = bits(1);
    for _ in 0..steps {
        l = next_bits(l);
    }
    while check_seed(number(&l)).is_err() {
        l = next_bits(l);
    }
    number(&l)
}

// ---- Frame ----

/// "A clock bit is 0 or 1."
pub fn is_clock_bit(clock: u32) -> bool {
    clock == 0 || clock == 1
}

/// "the clock bit toggles".
pub fn toggled(clock: u32) -> u32 {
    if clock == 0 {
        1
    } else {
        0
    }
}

/// "R (−16 to 16)", both ends included.
pub fn is_running_disparity(r: i32) -> bool {
    (-16..=16).contains(&r)
}

/// "Disparity of a frame is its ones minus its zeros."
pub fn disparity(frame: u16) -> i32 {
    let mut ones = 0;
    let mut zeros = 0;
    for bit in bits::<16>(u32::from(frame)) {
        if bit {
            ones += 1;
        } else {
            zeros += 1;
        }
    }
    ones - zeros
}

/// "invert all 16 bits".
pub fn invert(frame: u16) -> u16 {
    let mut list: [bool; 16] = bits(u32::from(frame));
    for k in 0..16 {
        list[k] = !list[k];
    }
    number(&list) as u16
}

/// "Scrambled data = sample xor the state's word" and, back again, "the sample
/// is data xor its word": 14 bits xor the word, bit by bit.
fn xor_word(value: u16, state: u32) -> u16 {
    let v: [bool; 14] = bits(u32::from(value));
    let w = word_bits(state);
    let mut x = [false; 14];
    for k in 0..=13 {
        x[k] = v[k] != w[k];
    }
    number(&x) as u16
}

/// "Scrambled data [...] in bits 13 to 0. Clock bit: bit 14. Disparity bit:
/// bit 15." and "Build the frame with disparity bit 0."
fn assemble(data: u16, clock: u32) -> u16 {
    let d: [bool; 14] = bits(u32::from(data));
    let mut list = [false; 16];
    list[0..=13].copy_from_slice(&d);
    list[14] = clock == 1;
    list[15] = false;
    number(&list) as u16
}

/// The frame sent for one sample, and R after it.
/// "Build the frame with disparity bit 0. If R plus its disparity lies in −16
/// to 16, send it. Otherwise invert all 16 bits." and "Running disparity R is
/// the sum over all frames".
/// Refused 3 for the state or the clock bit, "before any row below", and then
/// "5: R outside −16 to 16; then 4: sample above 16383".
pub fn build(sample: u16, state: u32, clock: u32, r: i32) -> Result<(u16, i32), u8> {
    if !is_state(state) || !is_clock_bit(clock) {
        return Err(3);
    }
    if !is_running_disparity(r) {
        return Err(5);
    }
    if sample > 16383 {
        return Err(4);
    }
    let built = assemble(xor_word(sample, state), clock);
    let sent = if is_running_disparity(r + disparity(built)) {
        built
    } else {
        invert(built)
    };
    Ok((sent, r + disparity(sent)))
}

/// What a frame holds.
/// "Reading: if bit 15 is 1, invert all 16 bits; then take clock bit and
/// data." Document 02: "Reading one frame shall also give its ones minus zeros
/// as received and whether it was inverted."
pub fn read(frame: u16) -> Content {
    let mut list: [bool; 16] = bits(u32::from(frame));
    let inverted = list[15];
    if inverted {
        list = bits(u32::from(invert(frame)));
    }
    Content {
        clock: if list[14] { 1 } else { 0 },
        scrambled: number(&list[0..=13]) as u16,
        disparity: disparity(frame),
        inverted: if inverted { 1 } else { 0 },
    }
}

/// "With a state given, the sample is data xor its word."
/// Refused 3 for the state.
pub fn read_sample(frame: u16, state: u32) -> Result<u16, u8> {
    if !is_state(state) {
        return Err(3);
    }
    Ok(xor_word(read(frame).scrambled, state))
}

/// "Bit 0 goes first on the line."
pub fn line_bits(frame: u16) -> Vec<bool> {
    bits::<16>(u32::from(frame)).to_vec()
}

/// "As bytes, the low byte is first, and bit 0 of each byte is earliest."
pub fn line_bytes(frame: u16) -> [u8; 2] {
    let line = line_bits(frame);
    [number(&line[0..8]) as u8, number(&line[8..16]) as u8]
}
