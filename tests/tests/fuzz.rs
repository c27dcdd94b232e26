//! Random lists of calls: a short run on the archive, and runs on versions with
//! a known mistake, which must be found and made small.

mod planted;

use owsopel_tests::archive::{fail, Archive, Calls, ARCHIVE};
use owsopel_tests::crossed_lines::Pair;
use owsopel_tests::fuzz::{list, run, smallest, tell, Call, Tally};
use owsopel_tests::lane_comparison::LaneComparison;
use owsopel_tests::lane_records::ALIGNMENTS;
use owsopel_tests::trials::sent_line;
use planted::{alignment_mistakes, conversion_mistakes, crossed_mistakes, doc_mistakes};
use planted::{feeding_by_frames, form_mistakes, frames_mistakes, lending_mistakes};
use planted::{other_mistakes, results_mistakes, sums_mistakes, Mistake, SLOW};

/// What the versions differ in, line by line.
fn told(calls: &Calls, list: &[Call]) -> String {
    let mut lines = Vec::new();
    tell(calls, list, &mut |line| lines.push(line));
    lines.join("\n")
}

/// Runs so many lists of a seed, and tells a failing one at its smallest.
fn run_lists(calls: &Calls, seed: u64, lists: u64) -> Result<Tally, Vec<Call>> {
    let mut tally = Tally::default();
    for number in 0..lists {
        let list = list(seed, number);
        if run(calls, &list, &mut tally).is_err() {
            return Err(smallest(calls, &list));
        }
    }
    Ok(tally)
}

/// The lists of the gate's run, always the same.
const LISTS: u64 = 16_000;

#[test]
fn the_archive_answers_as_the_slow_version() {
    match run_lists(&ARCHIVE, 1, LISTS) {
        Ok(tally) => {
            println!("{tally}");
            assert!(tally.is_whole(), "a call or an answer was not met");
        }
        Err(small) => fail(&told(&ARCHIVE, &small)),
    }
}

#[test]
fn the_slow_version_answers_as_itself() {
    assert!(run_lists(&SLOW, 2, 500).is_ok());
}

/// So its planted mistakes are the only ones.
#[test]
fn the_slow_version_by_frames_answers_as_the_slow_version() {
    assert!(run_lists(&feeding_by_frames(), 2, 2_000).is_ok());
}

#[test]
fn a_list_comes_again_from_its_seed_and_number() {
    for number in 0..50 {
        assert_eq!(list(9, number), list(9, number));
        assert_ne!(list(9, number), list(10, number));
        assert_ne!(list(9, number), list(9, number + 1));
    }
}

/// Demands that each mistake is found and made small.
#[track_caller]
fn demand_found(mistakes: &[Mistake]) {
    for mistake in mistakes {
        let calls = &mistake.calls;
        let Err(small) = run_lists(calls, 3, 4_000) else {
            fail(&format!("{}: not found", calls.name));
        };
        let told = told(calls, &small);
        println!("{told}\n");
        if small.len() > mistake.calls_needed || !told.contains(mistake.told) {
            fail(&format!("{}: not made small\n{told}", calls.name));
        }
    }
}

#[test]
fn the_mistakes_of_document_01_are_found() {
    demand_found(&doc_mistakes());
}

#[test]
fn mistakes_in_results_are_found() {
    demand_found(&results_mistakes());
}

#[test]
fn mistakes_in_the_number_of_alignment_frames_are_found() {
    demand_found(&alignment_mistakes());
}

#[test]
fn mistakes_in_balance_and_sums_are_found() {
    demand_found(&sums_mistakes());
}

#[test]
fn mistakes_on_a_crossed_line_are_found() {
    demand_found(&crossed_mistakes());
}

#[test]
fn mistakes_in_feeding_by_frames_are_found() {
    demand_found(&frames_mistakes());
}

/// The smallest list has `ows_feed` where both feeding calls have the mistake.
#[test]
fn a_mistake_in_both_feeding_calls_is_told_of_the_first() {
    for Mistake { calls, .. } in results_mistakes() {
        let ows_feed_frames = calls.ows_feed;
        let calls = Calls {
            ows_feed_frames,
            ..calls
        };
        let small = run_lists(&calls, 3, 4_000).expect_err(calls.name);
        let told = told(&calls, &small);
        let is_first = told.contains("ows_feed:") && !told.contains("ows_feed_frames:");
        assert!(is_first, "{told}");
    }
}

/// Carries two fresh receivers of one version through undamaged lines and their
/// crossed lines, with no other version beside.
fn run_crossed(calls: &Calls) -> Result<(), String> {
    let mut comparison = LaneComparison::<Archive>::new(4);
    for alignment in ALIGNMENTS {
        let (line, ..) = sent_line(&mut comparison, alignment, 40);
        let mut pair = Pair::fresh(calls);
        pair.feed_line(&line, 60, 100, &mut comparison.random)?;
    }
    Ok(())
}

/// With them the mistake that document 01 names first.
#[test]
fn the_crossed_line_alone_shows_its_mistakes() {
    for calls in [&SLOW, &ARCHIVE] {
        assert_eq!(run_crossed(calls), Ok(()));
    }
    let mut mistakes = crossed_mistakes();
    mistakes.extend(doc_mistakes().into_iter().take(1));
    for Mistake { calls, .. } in mistakes {
        match run_crossed(&calls) {
            Ok(()) => fail(&format!("{}: not found", calls.name)),
            Err(differs) => println!("{}:\n{differs}\n", calls.name),
        }
    }
}

#[test]
fn other_mistakes_are_found() {
    demand_found(&other_mistakes());
}

#[test]
fn mistakes_in_strips_of_two_forms_are_found() {
    demand_found(&form_mistakes());
}

#[test]
fn mistakes_in_converting_strips_are_found() {
    demand_found(&conversion_mistakes());
}

#[test]
fn what_must_not_be_altered_is_watched() {
    demand_found(&lending_mistakes());
}
