//! The archive's calls on single frames, each compared with the slow version:
//! the same refusal and the same values.

use crate::archive::{fail, ARCHIVE};
use crate::counts::Counts;
use crate::fuzz::FrameCall;
use crate::random::Random;

/// One part of the comparison, with its counts.
pub struct FrameComparison {
    /// For what the part makes up.
    pub random: Random,
    counts: Counts,
}

impl FrameComparison {
    /// A part before its first call.
    pub fn new(seed: u64) -> Self {
        FrameComparison {
            random: Random::new(seed),
            counts: Counts::default(),
        }
    }

    /// Runs a call; the refusal, 0 where taken.
    #[track_caller]
    pub fn call(&mut self, call: FrameCall) -> u8 {
        let step = call.run(&ARCHIVE, false);
        self.counts.add(step.refusal);
        if !step.same {
            let [answer, expected] = step.answers;
            fail(&format!(
                "{call}\n  archive: {answer}\n  slow version: {expected}"
            ));
        }
        step.refusal
    }

    /// Builds a frame; the refusal, 0 where taken.
    #[track_caller]
    pub fn build(&mut self, sample: u16, state: u32, clock: u32, r: i32) -> u8 {
        self.call(FrameCall::Build {
            sample,
            state,
            clock,
            r,
        })
    }

    /// Ends the part: prints its counts, and demands at least that many calls
    /// and each of these answers at least 20 times.
    #[track_caller]
    pub fn end(self, part: &str, least: u64, answers: &[usize]) {
        self.counts.end(part, least, answers);
    }
}
