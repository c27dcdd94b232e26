//! Numbers that look random and are the same in every run (splitmix64).

use crate::reference::strip::GAP;

/// The generator; its only part is the running state.
pub struct Random(u64);

impl Random {
    /// A generator whose numbers depend on the seed alone.
    pub fn new(seed: u64) -> Self {
        Random(seed)
    }

    /// The next 64 bits.
    pub fn number(&mut self) -> u64 {
        self.0 = self.0.wrapping_add(0x9E37_79B9_7F4A_7C15);
        let mut mixed = self.0;
        mixed = (mixed ^ (mixed >> 30)).wrapping_mul(0xBF58_476D_1CE4_E5B9);
        mixed = (mixed ^ (mixed >> 27)).wrapping_mul(0x94D0_49BB_1331_11EB);
        mixed ^ (mixed >> 31)
    }

    /// A number from 0 to below the bound.
    pub fn below(&mut self, bound: usize) -> usize {
        (self.number() >> 16) as usize % bound
    }

    /// True once in that many times.
    pub fn one_in(&mut self, times: usize) -> bool {
        self.below(times) == 0
    }

    /// One of a list.
    pub fn pick<T: Copy>(&mut self, list: &[T]) -> T {
        list[self.below(list.len())]
    }

    /// A number of 32 bits of any value.
    pub fn word(&mut self) -> u32 {
        (self.number() >> 32) as u32
    }

    /// A byte of any value.
    pub fn byte(&mut self) -> u8 {
        (self.number() >> 32) as u8
    }

    /// Bytes of any values.
    pub fn bytes(&mut self, length: usize) -> Vec<u8> {
        (0..length).map(|_| self.byte()).collect()
    }

    /// Slot contents of any values, items and others.
    pub fn slots(&mut self, length: usize) -> Vec<u16> {
        (0..length).map(|_| (self.number() >> 32) as u16).collect()
    }

    /// An item, a gap `gaps` times in 8.
    pub fn item(&mut self, gaps: usize) -> u16 {
        if self.below(8) < gaps {
            GAP
        } else {
            self.below(usize::from(GAP)) as u16
        }
    }
}
