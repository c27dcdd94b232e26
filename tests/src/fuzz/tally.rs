//! What a run has met.

use std::collections::BTreeMap;
use std::fmt::{self, Display};

use crate::counts::Counts;

/// Lists run, calls by name, and answers by number.
#[derive(Clone, Debug, Default)]
pub struct Tally {
    pub lists: u64,
    calls: BTreeMap<&'static str, u64>,
    pub answers: Counts,
    /// Calls made on the crossed line as well.
    crossed: u64,
}

/// The calls of the header.
const CALLS: usize = 21;

/// Those that are made on the crossed line as well, if the record is admitted.
const CROSSED: [&str; 3] = ["ows_feed", "ows_feed_frames", "ows_receiver_sync"];

impl Tally {
    pub fn add(&mut self, name: &'static str, refusal: u8) {
        *self.calls.entry(name).or_default() += 1;
        self.answers.add(refusal);
        self.crossed += u64::from(refusal == 0 && CROSSED.contains(&name));
    }

    /// Whether every call and every answer was met.
    pub fn is_whole(&self) -> bool {
        self.calls.len() == CALLS && self.answers.not_met().is_empty()
    }
}

impl Display for Tally {
    fn fmt(&self, to: &mut fmt::Formatter) -> fmt::Result {
        let (lists, calls) = (self.lists, self.answers.calls());
        writeln!(to, "{lists} lists, {calls} calls:")?;
        for (name, times) in &self.calls {
            writeln!(to, "  {name:22}{times:10}")?;
        }
        writeln!(
            to,
            "calls made on the crossed line as well: {}",
            self.crossed
        )?;
        writeln!(to, "answers, by number: {}", self.answers.text())?;
        match self.answers.not_met().as_slice() {
            [] => write!(to, "each answer was met"),
            left => write!(to, "answers that were not met: {left:?}"),
        }
    }
}
