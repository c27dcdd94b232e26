//! A failing list made smaller while it still fails.

use super::call::Call;
use super::numbers::Numbers;
use super::run::run;
use super::tally::Tally;
use crate::archive::Calls;

/// Lists tried at most.
const TRIES: usize = 30_000;

/// The smallest list found that still fails: the failing call alone with its
/// record, or fewer calls, then shorter lists of samples, items and bytes, then
/// smaller numbers, as long as this helps.
pub fn smallest(calls: &Calls, list: &[Call]) -> Vec<Call> {
    let mut search = Search {
        calls,
        list: list.to_vec(),
        crossed: true,
        tries: 0,
    };
    search.accept(list.to_vec());
    loop {
        let before = search.list.clone();
        search.give_the_record();
        search.remove_calls();
        search.shorten_lists();
        search.lower_numbers();
        if search.list == before {
            return search.list;
        }
    }
}

struct Search<'a> {
    calls: &'a Calls,
    list: Vec<Call>,
    /// Whether a list may fail on the crossed line alone: a difference from the
    /// slow version is not given up for one.
    crossed: bool,
    tries: usize,
}

impl Search<'_> {
    /// Takes a list instead if it fails, without the calls after its failure.
    fn accept(&mut self, mut list: Vec<Call>) -> bool {
        if self.tries == TRIES {
            return false;
        }
        self.tries += 1;
        let Err(failure) = run(self.calls, &list, &mut Tally::default()) else {
            return false;
        };
        if failure.crossed && !self.crossed {
            return false;
        }
        list.truncate(failure.place + 1);
        self.list = list;
        self.crossed = failure.crossed;
        true
    }

    /// Tries the failing call by itself, its record given: as it was before the
    /// call, or as the first elements of the call's list leave it.
    fn give_the_record(&mut self) {
        let Err(failure) = run(self.calls, &self.list, &mut Tally::default()) else {
            return;
        };
        let call = self.list[failure.place].clone();
        let length = self.length(failure.place);
        let shorter = (0..).map(|k| 1 << k).take_while(|rest| *rest < length);
        let mut firsts: Vec<usize> = shorter.map(|rest| length - rest).collect();
        if self.list.len() > 2 {
            firsts.push(0);
        }
        for first in firsts {
            let Some(calls) = call.with_record(&failure.records, first) else {
                return;
            };
            if self.accept(calls.to_vec()) {
                return;
            }
        }
    }

    /// Tries the list without runs of its calls, long ones first.
    fn remove_calls(&mut self) {
        let mut length = self.list.len();
        while length > 0 {
            let mut start = 0;
            while start + length <= self.list.len() {
                let mut list = self.list.clone();
                list.drain(start..start + length);
                if !self.accept(list) {
                    start += length;
                }
            }
            length /= 2;
        }
    }

    /// The length of the list of a call, 0 where it has none.
    fn length(&mut self, place: usize) -> usize {
        let call = self.list.get_mut(place);
        call.and_then(Call::list).map_or(0, |list| list.len())
    }

    /// Tries each call's list shorter, then with zeros alone.
    fn shorten_lists(&mut self) {
        for place in 0..self.list.len() {
            let mut length = self.length(place);
            while length > 0 {
                let mut start = 0;
                while start + length <= self.length(place) {
                    let mut list = self.list.clone();
                    let shortened = list[place].list().expect("it has a length");
                    shortened.remove(start..start + length);
                    if !self.accept(list) {
                        start += length;
                    }
                }
                length /= 2;
            }
            if self.length(place) > 0 {
                let mut list = self.list.clone();
                list[place].list().expect("it has a length").clear();
                self.accept(list);
            }
        }
    }

    /// Tries each number of each call nearer to 0, by halves of the way.
    fn lower_numbers(&mut self) {
        let mut place = 0;
        while place < self.list.len() {
            let mut index = 0;
            while let Some(mut number) = number(&self.list, place, index) {
                let mut less = number;
                while less != 0 && self.tries < TRIES {
                    if self.accept(with_number(&self.list, place, index, number - less)) {
                        number -= less;
                        less = number;
                    } else {
                        less /= 2;
                    }
                }
                index += 1;
            }
            place += 1;
        }
    }
}

/// The number of that index in the call at that place, if there is one.
fn number(list: &[Call], place: usize, index: usize) -> Option<i128> {
    let mut numbers = Vec::new();
    list.get(place)?.clone().pass(&mut |number| {
        numbers.push(number);
        number
    });
    numbers.get(index).copied()
}

/// The list with that number changed.
fn with_number(list: &[Call], place: usize, index: usize, changed: i128) -> Vec<Call> {
    let mut list = list.to_vec();
    let mut at = 0;
    list[place].pass(&mut |number| {
        at += 1;
        if at == index + 1 {
            changed
        } else {
            number
        }
    });
    list
}
