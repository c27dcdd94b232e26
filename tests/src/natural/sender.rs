//! The sender.

use super::{disparity, next, word};

/// The frames of sample 0 after the alignment frames of a sequence.
const SAMPLE_0_FRAMES: u32 = 32;

pub struct Sender {
    pub(super) seed: u32,
    pub(super) state: u32,
    pub(super) clock: bool,
    pub(super) r: i32,
    pub(super) position: u32,
    pub(super) alignment: u32,
}

#[derive(Clone, Copy, Debug, PartialEq, Eq)]
pub enum Stop {
    AllSent,
    OutOfSpace,
}

/// What a sending call did.
#[derive(Clone, Copy, Debug, PartialEq, Eq)]
pub struct Sent {
    pub stop: Stop,
    pub taken: usize,
    pub written: usize,
}

/// Whether a sender may start from the seed; if not, the refusal.
pub fn check_seed(seed: u32) -> Result<(), u8> {
    match seed {
        0 | 0x20000.. => Err(1),
        _ if word(seed) == 0x00FF => Err(2),
        _ => Ok(()),
    }
}

/// Whether a sender may send that number of alignment frames.
pub fn is_alignment(number: u32) -> bool {
    (12..=32).contains(&number) && number & 1 == 0
}

impl Sender {
    pub fn start(seed: u32) -> Result<Self, u8> {
        Sender::start_with(seed, 32)
    }

    pub fn start_with(seed: u32, alignment: u32) -> Result<Self, u8> {
        check_seed(seed)?;
        if !is_alignment(alignment) {
            return Err(19);
        }
        Ok(Sender {
            seed,
            state: seed,
            clock: false,
            r: 0,
            position: 0,
            alignment,
        })
    }

    /// The frames of the sequence; the position stays there.
    pub(super) fn sequence(&self) -> u32 {
        self.alignment + SAMPLE_0_FRAMES
    }

    pub fn sync(&mut self) {
        self.state = self.seed;
        self.clock = false;
        self.position = 0;
    }

    /// The next frame of a sample, scrambled and balanced.
    fn scrambled(&mut self, sample: u16) -> u16 {
        let mut frame = (sample ^ word(self.state)) | (u16::from(self.clock) << 14);
        let mut added = disparity(frame);
        if (self.r + added).abs() > 16 {
            frame = !frame;
            added = -added;
        }
        self.r += added;
        self.state = next(self.state);
        self.clock = !self.clock;
        frame
    }

    /// Sends samples, after what is left of the sequence.
    pub fn send(&mut self, samples: &[u16], buf: &mut [u8]) -> Result<Sent, u8> {
        if samples.iter().any(|sample| *sample > 0x3FFF) {
            return Err(4);
        }
        let sequence = self.sequence();
        let (mut taken, mut written) = (0, 0);
        let stop = loop {
            if self.position == sequence && taken == samples.len() {
                break Stop::AllSent;
            }
            if buf.len() - written < 2 {
                break Stop::OutOfSpace;
            }
            let frame = if self.position < self.alignment {
                self.position += 1;
                if self.position % 2 == 1 {
                    0xFF00
                } else {
                    0x00FF
                }
            } else if self.position < sequence {
                self.position += 1;
                self.scrambled(0)
            } else {
                taken += 1;
                self.scrambled(samples[taken - 1])
            };
            buf[written..written + 2].copy_from_slice(&frame.to_le_bytes());
            written += 2;
        };
        Ok(Sent {
            stop,
            taken,
            written,
        })
    }
}
