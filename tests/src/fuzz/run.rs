//! A list run by a version beside the slow version.

use super::call::{Call, Records};
use super::step::Crossed;
use super::tally::Tally;
use crate::archive::Calls;

/// The call of a list at which the versions differ, by its place, and the
/// records before it; or, where they do not, a crossed line from its plain one.
#[derive(Debug)]
pub struct Failure {
    pub place: usize,
    pub records: Box<Records>,
    /// Whether the crossed line alone differs.
    pub crossed: bool,
}

/// Runs a list up to the first call that fails.
pub fn run(calls: &Calls, list: &[Call], tally: &mut Tally) -> Result<(), Failure> {
    tally.lists += 1;
    let mut records = Records::default();
    for (place, call) in list.iter().enumerate() {
        let before = records.clone();
        let step = records.run(calls, call, false);
        if !step.same {
            return Err(Failure {
                place,
                records: Box::new(before),
                crossed: step.crossed.is_some(),
            });
        }
        if call.name() != "record" {
            tally.add(call.name(), step.refusal);
        }
    }
    Ok(())
}

/// Runs a list and tells it line by line: each call before it is run, then
/// what it gave; where the versions differ, or the crossed line from the plain
/// one, what each gave. A record that is given has no answer.
pub fn tell(calls: &Calls, list: &[Call], line: &mut dyn FnMut(String)) {
    let mut records = Records::default();
    for (place, call) in list.iter().enumerate() {
        line(format!("{}. {call}", place + 1));
        let step = records.run(calls, call, true);
        let [answer, expected] = step.answers;
        if let Some(Crossed { call, answers }) = step.crossed {
            line(format!("     both, on the plain line: {expected}"));
            line(format!("     the crossed line: {call}"));
            line(format!(
                "     {}, on the crossed line: {}",
                calls.name, answers[0]
            ));
            line(format!("     demanded on the crossed line: {}", answers[1]));
        } else if step.same && !answer.is_empty() {
            line(format!("     both: {answer}"));
        } else if !step.same {
            line(format!("     {}: {answer}", calls.name));
            line(format!("     slow version: {expected}"));
        }
    }
}
