//! Runs random lists of calls of the archive beside the slow version, and on
//! crossed lines beside the plain ones, for some time. Arguments, each of which
//! may be left out: `seed=N`, `seconds=N`, and `list=N` to run that list alone,
//! with its calls and answers told.
//!
//! An archive that ends the program, rather than answer, leaves the seed and
//! the number of its list in `target/fuzz.last`.

use std::fs::{remove_file, File};
use std::os::unix::fs::FileExt;
use std::path::Path;
use std::process::ExitCode;
use std::time::{Duration, Instant, SystemTime, UNIX_EPOCH};

use owsopel_tests::archive::ARCHIVE;
use owsopel_tests::fuzz::{list, run, smallest, tell, Call, Tally};

/// The number given to an argument, if it is given.
fn argument(name: &str) -> Option<u64> {
    let given = std::env::args().find_map(|argument| {
        let (given, value) = argument.split_once('=')?;
        (given == name).then(|| value.to_string())
    })?;
    match given.as_str() {
        "" => None,
        number => Some(number.parse().expect("an argument is no number")),
    }
}

/// A seed from the clock.
fn clock_seed() -> u64 {
    let now = SystemTime::now().duration_since(UNIX_EPOCH);
    now.expect("the clock is before 1970").as_millis() as u64 % 1_000_000_000
}

/// The smallest list found that fails as this one does, then how to repeat it.
fn tell_failure(seed: u64, number: u64, failing: &[Call]) {
    let small = smallest(&ARCHIVE, failing);
    println!("The archive differs from the slow version, or on a crossed line from the plain one.");
    println!("The smallest list found:");
    tell(&ARCHIVE, &small, &mut |line| println!("{line}"));
    println!("seed {seed}, list {number}; the whole list again, with its answers:");
    println!("make fuzz SEED={seed} LIST={number}");
}

/// Runs one list, told; whether it passes.
fn run_one(seed: u64, number: u64) -> bool {
    let list = list(seed, number);
    tell(&ARCHIVE, &list, &mut |line| println!("{line}"));
    run(&ARCHIVE, &list, &mut Tally::default()).is_ok()
}

/// Runs lists for that time; whether all pass and every answer is met.
fn run_for(time: Duration, seed: u64) -> bool {
    let place = Path::new(env!("CARGO_MANIFEST_DIR")).join("../target/fuzz.last");
    let last = File::create(&place).expect("target/fuzz.last can be written");
    let (start, mut tally) = (Instant::now(), Tally::default());
    for number in 0.. {
        if start.elapsed() > time {
            break;
        }
        let text = format!("make fuzz SEED={seed} LIST={number}\n");
        last.write_all_at(text.as_bytes(), 0)
            .expect("target/fuzz.last can be written");
        let list = list(seed, number);
        if run(&ARCHIVE, &list, &mut tally).is_err() {
            tell_failure(seed, number, &list);
            return false;
        }
    }
    remove_file(place).expect("target/fuzz.last can be removed");
    println!("{tally}");
    println!("no difference");
    tally.is_whole()
}

fn main() -> ExitCode {
    let seed = argument("seed").unwrap_or_else(clock_seed);
    println!("seed {seed}");
    let time = Duration::from_secs(argument("seconds").unwrap_or(60));
    let passes = match argument("list") {
        Some(number) => run_one(seed, number),
        None => run_for(time, seed),
    };
    match passes {
        true => ExitCode::SUCCESS,
        false => ExitCode::FAILURE,
    }
}
