//! The table of lane seeds in the frame crate against document 01's rule.

use std::collections::BTreeSet;
use std::path::Path;

use owsopel_tests::cycle::{cycle, PERIOD};
use owsopel_tests::reference::frame::{check_seed, lane_seed, next};

/// The text without its comments: `//` to the line's end, `/*` to `*/`.
fn without_comments(text: &str) -> String {
    let mut kept = String::new();
    let mut rest = text;
    while let Some(start) = rest.find('/') {
        let (before, comment) = rest.split_at(start);
        kept.push_str(before);
        rest = if comment.starts_with("//") {
            &comment[comment.find('\n').unwrap_or(comment.len())..]
        } else if comment.starts_with("/*") {
            kept.push(' ');
            let end = comment.find("*/").expect("a comment does not end");
            &comment[end + 2..]
        } else {
            kept.push('/');
            &comment[1..]
        };
    }
    kept.push_str(rest);
    kept
}

/// One entry: base ten, or base sixteen after 0x; underscores are allowed.
fn entry(text: &str) -> u32 {
    let digits = text.trim().replace('_', "");
    let value = match digits.strip_prefix("0x") {
        Some(hex) => u32::from_str_radix(hex, 16),
        None => digits.parse(),
    };
    value.unwrap_or_else(|_| panic!("not a number: {text:?}"))
}

/// The entries of `const SEEDS: [u32; 256] = [ ... ];` in the text.
fn entries(text: &str) -> Vec<u32> {
    let text = without_comments(text);
    let (_, after) = text.split_once("const SEEDS").expect("no const SEEDS");
    let (kind, after) = after.split_once('=').expect("no = after SEEDS");
    let kind: String = kind.split_whitespace().collect();
    assert_eq!(kind, ":[u32;256]");
    let list = after.trim_start().strip_prefix('[').expect("no [ after =");
    let (list, after) = list.split_once(']').expect("no ] after the entries");
    assert!(after.trim_start().starts_with(';'), "no ; after the ]");
    let list = list.trim();
    let list = list.strip_suffix(',').unwrap_or(list);
    list.split(',').map(entry).collect()
}

/// The entries of the frame crate's table.
fn table() -> Vec<u32> {
    let path = Path::new(env!("CARGO_MANIFEST_DIR")).join("../crates/frame/src/seeds.rt");
    let text = std::fs::read_to_string(&path)
        .unwrap_or_else(|error| panic!("{}: {error}", path.display()));
    entries(&text)
}

#[test]
fn entries_are_taken_from_the_text() {
    let text = "// const SEEDS: [u32; 256] = [7];\n\
        pub const SEEDS: [u32; 256] = [\n\
        1, 0x1_F0fF, // 5,\n\
        /* 6, */ 12_345,\n\
        ];\nconst OTHER: [u32; 1] = [9];\n";
    assert_eq!(entries(text), [1, 0x1F0FF, 12345]);
}

#[test]
fn every_entry_follows_the_rule() {
    let seeds = table();
    assert_eq!(seeds.len(), 256);
    for k in 0..=255 {
        assert_eq!(seeds[usize::from(k)], lane_seed(k), "entry {k}");
    }
}

#[test]
fn entries_are_256_different_permitted_seeds() {
    let seeds = table();
    for (k, seed) in seeds.iter().enumerate() {
        assert_eq!(check_seed(*seed), Ok(()), "entry {k}");
    }
    let different: BTreeSet<u32> = seeds.into_iter().collect();
    assert_eq!(different.len(), 256);
}

/// Document 02, Q-14, what follows from the period: entries j and k, j below k,
/// are 512 × (k − j) steps apart one way round the cycle and 131,071 less that
/// the other, so never closer than 511.
#[test]
fn entries_are_511_steps_or_more_apart() {
    let states = cycle(|state| next(state).unwrap());
    let places: Vec<usize> = table()
        .iter()
        .map(|seed| states.iter().position(|state| state == seed).unwrap())
        .collect();
    let mut closest = PERIOD;
    for (j, from) in places.iter().enumerate() {
        for (k, to) in places.iter().enumerate().skip(j + 1) {
            assert_eq!(to - from, 512 * (k - j), "entries {j} and {k}");
            closest = closest.min(to - from).min(PERIOD - (to - from));
        }
    }
    assert_eq!(closest, 511);
}
