//! Random lists of calls of every exported call, run by one version beside the
//! slow one, and on crossed lines beside the plain ones. A list is data, made
//! from a seed and its number alone, so that it can be made again, and made
//! smaller while it still fails.

mod call;
mod frames;
mod make;
mod make_lane;
mod make_strips;
mod numbers;
mod receivers;
mod run;
mod senders;
mod smaller;
mod step;
mod strips;
mod tally;

pub use call::Call;
pub use frames::FrameCall;
pub use make::list;
pub use run::{run, tell, Failure};
pub use smaller::smallest;
pub use tally::Tally;
