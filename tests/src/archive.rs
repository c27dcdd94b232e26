//! The calls of the archive under test, `libowsopel.a`, and safe calls round
//! them. Every buffer is lent as a copy between guard elements. A call that
//! alters a guard, or a buffer lent for reading only, ends in a panic.

mod calls;
mod lane;
mod lending;
mod strip;

pub use calls::{Calls, Feed, ARCHIVE};
pub use lending::{fail, short};

/// The archive, lent copies between guard elements.
pub struct Archive;

/// The archive, lent the caller's own buffers: for the benchmark.
pub struct Direct;
