//! Calls on strips: written with any items, in either form; read, checked and
//! converted as written, spoiled or of any bytes.

use super::call::Call;
use super::make::Making;
use super::strips::StripCall;
use crate::lists::{random_list, runs_list, NO_ITEMS};
use crate::random::Random;
use crate::reference::strip::{is_item, strip_in, FORMS, MOST_ITEMS};
use crate::reference::strip_reading::check;
use crate::strip_trials::{count_told, made_of_runs};

impl Making {
    pub fn strip_call(&mut self) {
        let call = match self.random.below(8) {
            0..3 => self.write_strip(),
            3 | 4 => self.read_strip(),
            5 => StripCall::Check {
                bytes: self.strip_bytes(),
            },
            _ => self.convert_strip(),
        };
        self.list.push(Call::Strip(call));
    }

    fn write_strip(&mut self) -> StripCall {
        let random = &mut self.random;
        let length = match random.below(160) {
            0 => MOST_ITEMS + 1 + random.below(3),
            1 => MOST_ITEMS - random.below(2),
            2..40 => random.below(200),
            40..44 => random.below(800),
            _ => random.below(12),
        };
        let (form, lane) = (random.pick(&FORMS), random.byte());
        let mut items = any_list(length, random);
        let exact = strip_in(form, lane, &items[..length.min(MOST_ITEMS)]);
        if length > 0 && random.one_in(8) {
            let place = random.below(length);
            items[place] = random.pick(&NO_ITEMS);
        }
        let size = room_round(exact.len(), random);
        if items.iter().all(|item| is_item(*item)) && length <= MOST_ITEMS {
            self.strips.push(exact);
        }
        let room = self.room(size);
        StripCall::Write {
            form,
            lane,
            items,
            room,
        }
    }

    fn read_strip(&mut self) -> StripCall {
        let bytes = self.strip_bytes();
        let size = room_round(count_told(&bytes), &mut self.random);
        let room = self.room(size);
        StripCall::Read { bytes, room }
    }

    fn convert_strip(&mut self) -> StripCall {
        let wanted = self.random.pick(&FORMS);
        let bytes = self.strip_bytes();
        let needed = match check(&bytes) {
            Ok((read, items)) => strip_in(wanted, read.lane, &items).len(),
            Err(_) => bytes.len(),
        };
        let size = room_round(needed, &mut self.random);
        let room = self.room(size);
        StripCall::Convert {
            wanted,
            bytes,
            room,
        }
    }

    /// A strip written earlier, or one of any kind; often spoiled.
    fn strip_bytes(&mut self) -> Vec<u8> {
        let random = &mut self.random;
        let mut bytes = match self.strips.last() {
            Some(_) if !random.one_in(4) => self.strips[random.below(self.strips.len())].clone(),
            _ => any_strip(random),
        };
        spoil(&mut bytes, random);
        bytes
    }
}

/// Elements to lend where so many are needed: often just as many, or one less.
fn room_round(needed: usize, random: &mut Random) -> usize {
    match random.below(6) {
        0 => random.below(needed + 20),
        1 => needed.saturating_sub(1),
        2 | 3 => needed,
        _ => needed + random.below(4),
    }
}

/// A list with gaps one by one, or in runs, short and long.
fn any_list(length: usize, random: &mut Random) -> Vec<u16> {
    match random.below(4) {
        0 => runs_list(length, 12, random),
        1 => runs_list(length, 600, random),
        _ => random_list(length, random),
    }
}

/// A strip of few items in either form, samples and runs of any kind in form two,
/// or bytes of any kind behind a count of any kind.
fn any_strip(random: &mut Random) -> Vec<u8> {
    match random.below(4) {
        0 => {
            let length = random.below(12);
            let items = any_list(length, random);
            strip_in(random.pick(&FORMS), random.byte(), &items)
        }
        1 => made_of_runs(6, random),
        _ => any_bytes(random),
    }
}

/// Bytes of any kind behind first bits and a count of any kind.
fn any_bytes(random: &mut Random) -> Vec<u8> {
    let length = random.below(24);
    let mut bytes = random.bytes(length);
    let count: u16 = match random.below(8) {
        0 => random.word() as u16,
        1 => random.pick(&[4095, 4096, 4097, 4098, 8191]),
        _ => random.below(20) as u16,
    };
    let first = match random.below(8) {
        0 => random.below(8) as u16,
        1..4 => 7,
        _ => 0,
    };
    for (byte, given) in bytes.iter_mut().zip((count ^ first << 13).to_be_bytes()) {
        *byte = given;
    }
    bytes
}

/// Flips bits, often in the last byte and in the first, cuts the end off, adds
/// bytes, or leaves the bytes.
fn spoil(bytes: &mut Vec<u8>, random: &mut Random) {
    let length = bytes.len();
    match random.below(16) {
        0..3 if length > 0 => bytes[length - 1] ^= 1 << random.below(7),
        3..5 if length > 0 => {
            let place = random.below(length);
            bytes[place] ^= 1 << random.below(8);
        }
        5 if length > 0 => bytes[0] ^= 1 << random.below(8),
        6 | 7 => bytes.truncate(random.below(length + 1)),
        8 | 9 => bytes.truncate(length.saturating_sub(1)),
        10 | 11 => {
            let more = random.below(5);
            bytes.extend(random.bytes(more));
        }
        _ => {}
    }
}
