//! Document 02, Q-4: inversion as an xor, over every data, clock bit and R, and
//! over every word.

use crate::answers::Content;

/// A state whose word is 0, so that data and sample are equal.
const PLAIN: u32 = 0x04000;

/// "What is built is the frame with that bit 0, xor 65535 times the bit."
/// `build` takes sample, state, clock bit and R; frame and new R.
pub fn built_by_xor(build: impl Fn(u16, u32, u32, i32) -> (u16, i32)) {
    for data in 0..16384 {
        for clock in 0..=1 {
            let plain = data | (clock as u16) << 14;
            let disparity = 2 * plain.count_ones() as i32 - 16;
            for r in -16..=16 {
                let bit = u16::from((r + disparity).abs() > 16);
                let (frame, new_r) = build(data, PLAIN, clock, r);
                assert_eq!(frame, plain ^ (65535 * bit), "{plain:#x} after R {r}");
                assert_eq!(frame >> 15, bit);
                assert_eq!(new_r, r + disparity * (1 - 2 * i32::from(bit)));
            }
        }
    }
}

/// "What is read is the word xor 65535 times its bit 15."
pub fn read_by_xor(read: impl Fn(u16) -> Content) {
    for word in 0..=u16::MAX {
        let plain = word ^ (65535 * (word >> 15));
        let content = read(word);
        let expected = (u32::from(plain >> 14), plain & 0x3FFF);
        assert_eq!((content.clock, content.scrambled), expected, "{word:#x}");
    }
}
