//! Document 02, Q-5: the sums of the frames that a receiver judged in Locked.

/// "The running, lowest and highest sums"; "a record may hold any three such
/// numbers". "0 when fresh", which is the default.
#[derive(Clone, Copy, Debug, Default, PartialEq, Eq)]
pub struct Sums {
    pub running: i32,
    pub lowest: i32,
    pub highest: i32,
}

impl Sums {
    /// "sums this from locking on and keeps the lowest and highest sum at frame
    /// ends": one frame's ones minus zeros more.
    pub fn add(&mut self, disparity: i32) {
        self.running = held(i64::from(self.running) + i64::from(disparity));
        if self.running < self.lowest {
            self.lowest = self.running;
        }
        if self.running > self.highest {
            self.highest = self.running;
        }
    }
}

/// "Each sum is held at the limits of 32 signed bits."
fn held(sum: i64) -> i32 {
    let (least, most) = (-2_147_483_648, 2_147_483_647);
    if sum < least {
        return least as i32;
    }
    if sum > most {
        return most as i32;
    }
    sum as i32
}
