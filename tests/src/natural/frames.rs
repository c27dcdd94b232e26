//! The receiver by whole bytes, and by two bytes a frame where it has locked.
//! In Hunt both go bit by bit.

use super::receiver::{read, recover, Mode, Part, Receiver, Sums, GAP, HUNT, LOSS};
use super::{disparity, next, word};

impl Mode {
    /// The bits collected of a frame; Hunt has none.
    fn part(&mut self) -> Option<&mut Part> {
        match self {
            Mode::Hunt { .. } => None,
            Mode::Flash { part, .. }
            | Mode::First { part, .. }
            | Mode::Prove { part, .. }
            | Mode::Locked { part, .. } => Some(part),
        }
    }

    /// Locked's numbers, if under 8 bits are held: two more bytes are then a
    /// frame and as many bits.
    fn lock(&self, sums: Sums) -> Option<Lock> {
        match *self {
            Mode::Locked {
                part,
                results,
                state,
                clock,
            } if part.count < 8 => Some(Lock {
                bits: part.bits.into(),
                count: part.count,
                results,
                state,
                clock,
                sums,
            }),
            _ => None,
        }
    }
}

/// Locked's numbers while two bytes at a time are read.
struct Lock {
    bits: u32,
    count: u32,
    results: u8,
    state: u32,
    clock: bool,
    sums: Sums,
}

impl Lock {
    /// Reads two bytes; the sample of the frame that they end, unless it is
    /// faulty.
    fn push(&mut self, pair: u16) -> Option<u16> {
        self.bits |= u32::from(pair) << self.count;
        let frame = self.bits as u16;
        self.bits >>= 16;
        let (clock, data) = read(frame);
        self.sums.add(disparity(frame));
        let sample = data ^ word(self.state);
        let faulty = clock != self.clock;
        self.results = self.results << 1 | u8::from(faulty);
        self.state = next(self.state);
        self.clock = !self.clock;
        (!faulty).then_some(sample)
    }

    /// Whether a faulty frame has lost lock.
    fn is_lost(&self) -> bool {
        self.results.count_ones() == LOSS
    }

    fn mode(&self) -> Mode {
        if self.is_lost() {
            return HUNT;
        }
        Mode::Locked {
            part: Part::default(),
            results: self.results,
            state: self.state,
            clock: self.clock,
        }
    }
}

impl Receiver {
    /// Hunts through so many bits, at most 8, up to the pattern; Flash holds
    /// those after it.
    fn hunt(&mut self, read: u16, number: u32) {
        let Mode::Hunt {
            mut bits,
            mut count,
        } = self.mode
        else {
            return;
        };
        for k in 0..number {
            bits = (bits >> 1) | (u32::from(read >> k & 1) << 31);
            count = (count + 1).min(32);
            if count == 32 && matches!(bits, 0x00FF_FF00 | 0xFF00_00FF) {
                let part = Part {
                    bits: read >> (k + 1),
                    count: number - k - 1,
                };
                let frame = (bits >> 16) as u16;
                self.mode = Mode::Flash { part, frame };
                return;
            }
        }
        self.mode = Mode::Hunt { bits, count };
    }

    /// Judges a frame, after which no bits are held; the item, if it hands one
    /// out.
    fn judge(&mut self, frame: u16) -> Option<u16> {
        match &mut self.mode {
            Mode::Hunt { .. } => {}
            Mode::Flash { frame: held, .. } if frame == !*held => *held = frame,
            Mode::Flash { .. } => {
                let (clock, data) = read(frame);
                let part = Part::default();
                self.mode = Mode::First { part, data, clock };
            }
            Mode::First { data, clock, .. } => {
                let (clock_now, q) = read(frame);
                self.mode = recover(*data, *clock, q, clock_now);
            }
            Mode::Prove { .. } => self.prove(frame),
            Mode::Locked { .. } => return self.locked(frame),
        }
        None
    }

    /// Holds the bits that came after a frame, under 8.
    fn hold(&mut self, bits: u16, count: u32) {
        match self.mode.part() {
            None => self.hunt(bits, count),
            Some(part) => *part = Part { bits, count },
        }
    }

    /// Reads one byte; the item, if it hands one out.
    fn push_byte(&mut self, byte: u8) -> Option<u16> {
        let Some(part) = self.mode.part() else {
            self.hunt(byte.into(), 8);
            return None;
        };
        let bits = u32::from(part.bits) | (u32::from(byte) << part.count);
        let count = part.count + 8;
        if count < 16 {
            let bits = bits as u16;
            *part = Part { bits, count };
            return None;
        }
        let item = self.judge(bits as u16);
        self.hold((bits >> 16) as u16, count - 16);
        item
    }

    /// Reads two bytes a frame as long as it is Locked, and if under 8 bits are
    /// held; the frames read.
    fn push_pairs(&mut self, bytes: &[u8], slots: &mut [u16]) -> usize {
        let Some(mut lock) = self.mode.lock(self.sums) else {
            return 0;
        };
        let (mut frames, mut gaps) = (0, 0);
        for (pair, slot) in bytes.chunks_exact(2).zip(slots) {
            let item = lock.push(u16::from_le_bytes([pair[0], pair[1]]));
            *slot = item.unwrap_or(GAP);
            frames += 1;
            if item.is_none() {
                gaps += 1;
                if lock.is_lost() {
                    self.losses = self.losses.saturating_add(1);
                    break;
                }
            }
        }
        self.samples = self.samples.saturating_add(frames as u64 - gaps);
        self.gaps = self.gaps.saturating_add(gaps);
        self.sums = lock.sums;
        self.mode = lock.mode();
        self.hold(lock.bits as u16, lock.count);
        frames
    }

    /// What `feed` does, byte by byte.
    pub fn feed_bytes(&mut self, bytes: &[u8], slots: &mut [u16]) -> (usize, usize) {
        let mut used = 0;
        for (place, byte) in bytes.iter().enumerate() {
            if used == slots.len() {
                return (place, used);
            }
            if let Some(item) = self.push_byte(*byte) {
                slots[used] = item;
                used += 1;
            }
        }
        (bytes.len(), used)
    }

    /// What `feed` does, two bytes a frame where that can be.
    pub fn feed_pairs(&mut self, bytes: &[u8], slots: &mut [u16]) -> (usize, usize) {
        let (mut place, mut used) = (0, 0);
        while place < bytes.len() && used < slots.len() {
            let frames = self.push_pairs(&bytes[place..], &mut slots[used..]);
            if frames > 0 {
                place += 2 * frames;
                used += frames;
                continue;
            }
            if let Some(item) = self.push_byte(bytes[place]) {
                slots[used] = item;
                used += 1;
            }
            place += 1;
        }
        (place, used)
    }
}
