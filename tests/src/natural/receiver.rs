//! The receiver, bit by bit.

use super::{disparity, next, word};

pub const GAP: u16 = 16384;

/// The bits of a frame collected so far, the earliest lowest.
#[derive(Clone, Copy, Debug, Default)]
pub(super) struct Part {
    pub(super) bits: u16,
    pub(super) count: u32,
}

impl Part {
    /// Adds a bit; the frame, once it is whole.
    fn push(&mut self, bit: bool) -> Option<u16> {
        self.bits |= u16::from(bit) << self.count;
        self.count += 1;
        if self.count < 16 {
            return None;
        }
        let frame = self.bits;
        *self = Part::default();
        Some(frame)
    }
}

#[derive(Clone, Copy, Debug)]
pub(super) enum Mode {
    /// The latest bit is the highest of `bits`.
    Hunt {
        bits: u32,
        count: u32,
    },
    Flash {
        part: Part,
        frame: u16,
    },
    First {
        part: Part,
        data: u16,
        clock: bool,
    },
    Prove {
        part: Part,
        read: u32,
        state: u32,
        clock: bool,
    },
    /// A 1 of `results` is a faulty frame, the latest lowest; `clock` is the
    /// bit expected of the next frame.
    Locked {
        part: Part,
        results: u8,
        state: u32,
        clock: bool,
    },
}

pub(super) const HUNT: Mode = Mode::Hunt { bits: 0, count: 0 };

/// The sum of the disparities of Locked's frames, and its lowest and highest.
#[derive(Clone, Copy, Debug, Default)]
pub(super) struct Sums {
    pub(super) running: i32,
    pub(super) lowest: i32,
    pub(super) highest: i32,
}

impl Sums {
    pub(super) fn add(&mut self, disparity: i32) {
        self.running = self.running.saturating_add(disparity);
        self.lowest = self.lowest.min(self.running);
        self.highest = self.highest.max(self.running);
    }
}

/// The faulty frames, of the last eight, that lose lock.
pub(super) const LOSS: u32 = 4;

pub struct Receiver {
    pub(super) mode: Mode,
    pub(super) samples: u64,
    pub(super) gaps: u64,
    pub(super) losses: u64,
    pub(super) sums: Sums,
}

/// Clock bit and data of a frame.
pub(super) fn read(frame: u16) -> (bool, u16) {
    let upright = if frame & 0x8000 != 0 { !frame } else { frame };
    (upright & 0x4000 != 0, upright & 0x3FFF)
}

/// The mode after First's second frame.
pub(super) fn recover(p: u16, held_clock: bool, q: u16, clock: bool) -> Mode {
    let state = u32::from(p) | (u32::from(q & 7) << 14);
    let after = next(state);
    if clock == held_clock || state == 0 || word(after) != q {
        return HUNT;
    }
    Mode::Prove {
        part: Part::default(),
        read: 2,
        state: next(after),
        clock,
    }
}

impl Default for Receiver {
    fn default() -> Self {
        Receiver {
            mode: HUNT,
            samples: 0,
            gaps: 0,
            losses: 0,
            sums: Sums::default(),
        }
    }
}

impl Receiver {
    pub fn sync(&mut self) {
        self.mode = HUNT;
    }

    /// Reads one bit; the item, if it hands one out.
    fn push(&mut self, bit: bool) -> Option<u16> {
        match &mut self.mode {
            Mode::Hunt { bits, count } => {
                *bits = (*bits >> 1) | (u32::from(bit) << 31);
                *count = (*count + 1).min(32);
                if *count == 32 && matches!(*bits, 0x00FF_FF00 | 0xFF00_00FF) {
                    let frame = (*bits >> 16) as u16;
                    let part = Part::default();
                    self.mode = Mode::Flash { part, frame };
                }
                None
            }
            Mode::Flash { part, frame } => {
                let now = part.push(bit)?;
                if now == !*frame {
                    *frame = now;
                } else {
                    let (clock, data) = read(now);
                    let part = Part::default();
                    self.mode = Mode::First { part, data, clock };
                }
                None
            }
            Mode::First { part, data, clock } => {
                let (clock_now, q) = read(part.push(bit)?);
                self.mode = recover(*data, *clock, q, clock_now);
                None
            }
            Mode::Prove { part, .. } => {
                let frame = part.push(bit)?;
                self.prove(frame);
                None
            }
            Mode::Locked { part, .. } => {
                let frame = part.push(bit)?;
                self.locked(frame)
            }
        }
    }

    pub(super) fn prove(&mut self, frame: u16) {
        let Mode::Prove {
            part,
            read: frames,
            state,
            clock,
        } = &mut self.mode
        else {
            return;
        };
        let (clock_now, data) = read(frame);
        if data != word(*state) || clock_now == *clock {
            self.mode = HUNT;
            return;
        }
        *frames += 1;
        *state = next(*state);
        *clock = clock_now;
        if *frames == 32 {
            self.mode = Mode::Locked {
                part: *part,
                results: 0,
                state: *state,
                clock: !*clock,
            };
            self.sums = Sums::default();
        }
    }

    pub(super) fn locked(&mut self, frame: u16) -> Option<u16> {
        let Mode::Locked {
            results,
            state,
            clock,
            ..
        } = &mut self.mode
        else {
            return None;
        };
        let (clock_now, data) = read(frame);
        self.sums.add(disparity(frame));
        let sample = data ^ word(*state);
        let faulty = clock_now != *clock;
        *results = *results << 1 | u8::from(faulty);
        *state = next(*state);
        *clock = !*clock;
        if !faulty {
            self.samples = self.samples.saturating_add(1);
            return Some(sample);
        }
        self.gaps = self.gaps.saturating_add(1);
        if results.count_ones() == LOSS {
            self.losses = self.losses.saturating_add(1);
            self.mode = HUNT;
        }
        Some(GAP)
    }

    /// Reads bytes into item slots; the bytes and the slots used.
    pub fn feed(&mut self, bytes: &[u8], slots: &mut [u16]) -> (usize, usize) {
        let mut used = 0;
        for (place, byte) in bytes.iter().enumerate() {
            if used == slots.len() {
                return (place, used);
            }
            for k in 0..8 {
                if let Some(item) = self.push(byte >> k & 1 != 0) {
                    slots[used] = item;
                    used += 1;
                }
            }
        }
        (bytes.len(), used)
    }
}
