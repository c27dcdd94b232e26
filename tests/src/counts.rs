//! Calls counted by their answer: the refusal's number, 0 where taken.

use std::sync::atomic::{AtomicU64, Ordering};

use crate::archive::fail;

/// The calls of all parts of one run that have ended.
static ALL_CALLS: AtomicU64 = AtomicU64::new(0);

/// The numbers an answer can have.
const ANSWERS: [usize; 17] = [0, 1, 2, 3, 4, 5, 6, 7, 8, 9, 10, 11, 12, 13, 19, 20, 21];

/// How often each answer was met.
#[derive(Clone, Debug, Default)]
pub struct Counts {
    /// By number; those that no answer has stay at 0.
    met: [u64; 22],
}

impl Counts {
    /// Counts a call.
    #[track_caller]
    pub fn add(&mut self, refusal: u8) {
        let number = usize::from(refusal);
        match ANSWERS.contains(&number) {
            true => self.met[number] += 1,
            false => fail(&format!("there is no refusal {refusal}")),
        }
    }

    /// The calls counted.
    pub fn calls(&self) -> u64 {
        self.met.iter().sum()
    }

    /// The answers met, with their times.
    pub fn text(&self) -> String {
        let met: Vec<String> = ANSWERS
            .into_iter()
            .filter(|number| self.met[*number] > 0)
            .map(|number| format!("{number}: {}", self.met[number]))
            .collect();
        met.join(", ")
    }

    /// The numbers of the answers that were not met.
    pub fn not_met(&self) -> Vec<usize> {
        ANSWERS
            .into_iter()
            .filter(|number| self.met[*number] == 0)
            .collect()
    }

    /// Ends a part of a run: prints its counts, and demands at least that many
    /// calls and each of these answers at least 20 times.
    #[track_caller]
    pub fn end(&self, part: &str, least: u64, answers: &[usize]) {
        let calls = self.calls();
        let all = ALL_CALLS.fetch_add(calls, Ordering::SeqCst) + calls;
        let met = self.text();
        println!("{part}: {calls} calls ({met}); {all} in the parts ended so far");
        if calls < least {
            fail(&format!("{part}: {calls} calls, under {least}"));
        }
        self.demand(part, answers);
    }

    /// Demands each of these answers at least 20 times.
    #[track_caller]
    pub fn demand(&self, part: &str, answers: &[usize]) {
        for number in answers {
            let times = self.met[*number];
            if times < 20 {
                fail(&format!("{part}: answer {number} met {times} times"));
            }
        }
    }
}
