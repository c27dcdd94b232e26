//! The scrambler's cycle (document 02, Q-14), walked state by state.

/// "131,071 steps".
pub const PERIOD: usize = 131_071;

/// The states from 1 on, each the step of the one before, up to the last one
/// before 1 comes again.
#[track_caller]
pub fn cycle(step: impl Fn(u32) -> u32) -> Vec<u32> {
    let mut states = vec![1];
    loop {
        let state = step(states[states.len() - 1]);
        if state == 1 {
            return states;
        }
        states.push(state);
        assert!(states.len() <= PERIOD, "1 does not come again");
    }
}
