//! Versions with a known mistake. Each is the slow version but for one call.

mod alignment;
mod conversion;
mod crossed;
mod frames;
mod lending;
mod receiver;
mod results;
mod sender;
mod strip_forms;
mod sums;

use owsopel_tests::archive::Calls;

pub use owsopel_tests::reference::functions::SLOW;

/// A version with a mistake, the calls that show it at the smallest, and a part
/// of what is then told.
pub struct Mistake {
    pub calls: Calls,
    pub calls_needed: usize,
    pub told: &'static str,
}

/// The version of that name, shown by so many calls, which tell this.
fn mistake(calls: Calls, name: &'static str, needed: usize, told: &'static str) -> Mistake {
    Mistake {
        calls: Calls { name, ..calls },
        calls_needed: needed,
        told,
    }
}

/// "Mistakes to be shut out", in document 01's order.
pub fn doc_mistakes() -> Vec<Mistake> {
    vec![
        receiver::mistake("judging the clock bit before undoing the inversion"),
        sender::inverts_at_16_in_build(),
        sender::inverts_at_16_in_send(),
        sender::sets_r_to_0_on_sync(),
        receiver::mistake("accepting recovered state 0"),
        receiver::mistake("not stepping the scrambler on a gap"),
        receiver::mistake("most significant bit first on the line"),
    ]
}

/// Mistakes of other kinds.
pub fn other_mistakes() -> Vec<Mistake> {
    let mut mistakes = lending::strip_mistakes();
    mistakes.extend([
        sender::refuses_in_another_order(),
        receiver::mistake("a total that starts again from 0"),
        receiver::mistake("a feed that idles after its first items"),
        receiver::mistake("a sync that keeps the bits held"),
    ]);
    mistakes
}

pub use alignment::alignment_mistakes;
pub use conversion::conversion_mistakes;
pub use crossed::crossed_mistakes;
pub use frames::{feeding_by_frames, frames_mistakes};
pub use lending::lending_mistakes;
pub use results::results_mistakes;
pub use strip_forms::form_mistakes;
pub use sums::sums_mistakes;
