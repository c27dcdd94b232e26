//! Lists of items on which strips are tried.

use crate::random::Random;
use crate::reference::strip::{GAP, MOST_ITEMS};

/// Items at the ends and the middle of their range; the last is a gap.
pub const EDGES: [u16; 6] = [0, 1, 8191, 8192, 16383, GAP];

/// Numbers that are no items.
pub const NO_ITEMS: [u16; 3] = [16385, 32768, 65535];

/// Nine fixed lists of one length: six of one edge value each (the last is all
/// gaps), the edge values in turn, and sample and gap in turn from either.
pub fn fixed_lists(length: usize) -> Vec<Vec<u16>> {
    let mut lists: Vec<Vec<u16>> = EDGES.iter().map(|edge| vec![*edge; length]).collect();
    lists.push((0..length).map(|k| EDGES[k % EDGES.len()]).collect());
    for start in [0, 1] {
        let turns = (0..length).map(|k| if (k + start) % 2 == 0 { 0x2AAA } else { GAP });
        lists.push(turns.collect());
    }
    lists
}

/// A random list: edge values only, or samples with few, half or many gaps.
pub fn random_list(length: usize, random: &mut Random) -> Vec<u16> {
    match [0, 1, 4, 7][random.below(4)] {
        0 => (0..length).map(|_| EDGES[random.below(6)]).collect(),
        gaps => (0..length).map(|_| random.item(gaps)).collect(),
    }
}

/// A list of so many items in which item k is a gap just where bit k of the
/// pattern is 1.
pub fn pattern_list(pattern: usize, length: usize, random: &mut Random) -> Vec<u16> {
    let item = |k: usize| match pattern >> k & 1 {
        1 => GAP,
        _ => random.item(0),
    };
    (0..length).map(item).collect()
}

/// Numbers of gaps round one and two of form two's longest runs, and round the
/// most that a strip can have.
pub const RUNS: [usize; 9] = [255, 256, 257, 511, 512, 513, 4094, 4095, 4096];

/// So many gaps: alone, before, after and between samples, and twice with a
/// sample between, those that a strip can have.
pub fn gap_lists(gaps: usize, random: &mut Random) -> Vec<Vec<u16>> {
    let run = vec![GAP; gaps];
    let mut samples = |length: usize| -> Vec<u16> { (0..length).map(|_| random.item(0)).collect() };
    let lists = [
        run.clone(),
        [run.clone(), samples(1)].concat(),
        [samples(1), run.clone()].concat(),
        [samples(5), run.clone()].concat(),
        [samples(2), run.clone(), samples(3)].concat(),
        [run.clone(), samples(1), run].concat(),
    ];
    let fits = |list: &Vec<u16>| list.len() <= MOST_ITEMS;
    lists.into_iter().filter(fits).collect()
}

/// A random list with runs of gaps up to that long between few samples.
pub fn runs_list(length: usize, longest: usize, random: &mut Random) -> Vec<u16> {
    let mut list = Vec::new();
    while list.len() < length {
        let gaps = random.below(longest + 1);
        list.extend(vec![GAP; gaps]);
        let samples = random.below(4);
        list.extend((0..samples).map(|_| random.item(0)));
    }
    list.truncate(length);
    list
}

/// Copies of a list, each with a number that is no item: one at its start, one
/// at its end, one anywhere. An empty list has none.
pub fn spoiled(list: &[u16], random: &mut Random) -> Vec<Vec<u16>> {
    let mut copies = Vec::new();
    if list.is_empty() {
        return copies;
    }
    let places = [0, list.len() - 1, random.below(list.len())];
    for (place, number) in places.into_iter().zip(NO_ITEMS) {
        let mut copy = list.to_vec();
        copy[place] = number;
        copies.push(copy);
    }
    copies
}
