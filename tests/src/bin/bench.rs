//! The archive's speed beside the natural versions' and beside copying the
//! input, as tables. All run in turn on the same input, and medians of the
//! processor time are shown, so that other programs on the machine disturb
//! little. Frames inverted or not are compared in the same way, two lengths of
//! a line by the least times.

use owsopel_tests::bench::damage::{burst, half, last_burst};
use owsopel_tests::bench::inversion::Frames;
use owsopel_tests::bench::lines::Input;
use owsopel_tests::bench::strips::Book;
use owsopel_tests::bench::table::{head, inversion_head, inversion_row, lengths, machine, row};
use owsopel_tests::bench::table::{ways_head, ways_row, ways_told};
use owsopel_tests::natural::strip::Form;

fn main() {
    machine();
    let input = Input::default();
    head("ns per bit of the line");
    row("feeding, locked line", input.locked_line());
    row("feeding, noise", input.noise());
    row("sending", input.sending());
    println!();

    ways_told();
    ways(&input);
    println!();

    strips(Form::One, "ns per item, form one", "shortening");
    println!();
    strips(Form::Two, "ns per item, form two", "expanding");
    println!();

    inversions(&Frames::default());
    println!();
    lengths(input.lengths());
}

/// Ways to feed: a locked line whose frames begin 0 to 15 bits past every second
/// byte; noise; faulty frames at random that keep lock; a new sequence every 2000
/// frames, after four faulty frames just before it or anywhere; a new sequence
/// every 128 frames, after frames of which half are faulty.
fn ways(input: &Input) {
    ways_head();
    for offset in 0..16 {
        ways_row(&format!("bit offset {offset}"), input.offset(offset));
    }
    println!();

    ways_head();
    ways_row("noise", input.noise_in_ways());
    ways_row("1 in 20 faulty", input.keeping_lock(20));
    ways_row("3 in 10 faulty", input.keeping_lock(2));
    ways_row("burst, sequence", input.losing_lock(2000, last_burst));
    ways_row("burst, hunting", input.losing_lock(2000, burst));
    ways_row("1 in 2, hunting", input.losing_lock(128, half));
}

/// Strips of a form, with a gap once and 14 times in 16.
fn strips(form: Form, unit: &str, converting: &str) {
    head(unit);
    for (gaps, told) in [(1, "1 gap in 16"), (14, "14 gaps in 16")] {
        let book = Book::new(form, gaps);
        row(&format!("writing, {told}"), book.writing());
        row(&format!("reading, {told}"), book.reading());
        row(&format!("checking, {told}"), book.checking());
        row(&format!("{converting}, {told}"), book.converting());
    }
}

fn inversions(frames: &Frames) {
    inversion_head();
    inversion_row("reading, ows_read", frames.reading());
    inversion_row("reading, ows_read_sample", frames.reading_samples());
    inversion_row("reading, with a branch", frames.reading_with_branch());
    inversion_row("building, ows_build", frames.building());
    inversion_row("building, with a branch", frames.building_with_branch());
    inversion_row("feeding, locked line, ows_feed", frames.feeding());
    inversion_row("feeding, ows_feed_frames", frames.feeding_frames());
    inversion_row("sending, ows_send", frames.sending());
}
