//! A second version of the rules, written from document 01 and from
//! and Q-8 of document 02, and the checks run on it and on the product. It is slow
//! on purpose: every rule is spelled out on lists of bits, so that it shares no
//! method with code built on arithmetic.
//!
//! Beside it stands a third version of the sender, the receiver and the strips,
//! `natural`, written for use, which the benchmark `src/bin/bench.rs` takes as a
//! measure. `src/bin/fuzz.rs` runs random lists of calls.
//!
//! To run, in this folder: `cargo test --offline`. The check of the seed table
//! reads `../crates/frame/src/seeds.rt`. The checks of the product call
//! `../target/staticlib/libowsopel.a`, which `make lib` writes.

pub mod answers;
pub mod archive;
pub mod awaited;
pub mod bench;
pub mod comparison;
pub mod counts;
pub mod crossed;
pub mod crossed_lines;
pub mod cycle;
pub mod frame_comparison;
pub mod fuzz;
pub mod inversion;
pub mod lane_comparison;
pub mod lane_records;
pub mod lane_reports;
pub mod lines;
pub mod lists;
pub mod long_lines;
pub mod natural;
pub mod random;
pub mod ranges;
pub mod records;
pub mod reference;
pub mod strip_trials;
pub mod sum_trials;
pub mod trials;
