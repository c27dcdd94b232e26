//! The archive's speed beside the natural versions' and beside copying the same
//! input, on lines of several kinds and on frames inverted or not, measured in
//! one process.

pub mod damage;
pub mod frames;
pub mod inversion;
pub mod lines;
pub mod strips;
pub mod table;
pub mod time;
pub mod ways;
