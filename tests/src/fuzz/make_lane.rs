//! Calls on senders and receivers, and what happens to the line between them.

use super::call::{Call, RECORDS};
use super::make::{alignment, any_word, sample, seed, Making};
use super::receivers::ReceiverCall;
use super::senders::SenderCall;
use crate::lane_records::{self, sequence, ALIGNMENTS, MODES};
use crate::lines::{bytes_of, Damage};
use crate::long_lines::{samples, size};
use crate::random::Random;
use crate::ranges::{receiver_parts, sender_parts, Part};
use crate::records::{first, locked, Receiver, Sender, FEED_CALLS, FLASH};
use crate::reference::calls as slow;

/// Damage to what one call sent.
const DAMAGE: [Damage; 8] = [
    Damage::None,
    Damage::Bursts { apart: 4 },
    Damage::CloseBursts { apart: 4 },
    Damage::Flips { apart: 30 },
    Damage::Flips { apart: 500 },
    Damage::Lost { apart: 500 },
    Damage::Added { apart: 500 },
    Damage::Noise { apart: 1000 },
];

impl Making {
    // ---- Senders ----

    pub fn sender_call(&mut self) {
        let index = self.index();
        let is_refused = slow::sync(&mut self.records.senders[index].clone()) != 0;
        let call = match self.random.below(10) {
            // A spoiled record is replaced soon.
            6.. if is_refused => SenderCall::StartWith {
                seed: lane_records::seed(&mut self.random),
                alignment: self.random.pick(&ALIGNMENTS),
            },
            0 => self.given_sender(index),
            1 => self.start(),
            2 => SenderCall::Sync,
            3 if is_refused => SenderCall::Sync,
            _ => self.send(index),
        };
        let sender = &mut self.records.senders[index];
        match &call {
            SenderCall::Given { record } => *sender = *record,
            SenderCall::Start { seed } => *sender = slow::start(*seed).sender,
            SenderCall::StartWith { seed, alignment } => {
                *sender = slow::start_with(*seed, *alignment).sender;
            }
            SenderCall::Sync => drop(slow::sync(sender)),
            SenderCall::Send { samples, room } => {
                let mut buf = room.bytes();
                let sent = slow::send(*sender, samples, &mut buf);
                *sender = sent.sender;
                self.put_on_line(index, &buf[..sent.written]);
            }
        }
        self.list.push(Call::Sender { index, call });
    }

    fn start(&mut self) -> SenderCall {
        let random = &mut self.random;
        let seed = seed(random);
        match random.below(3) {
            0 => SenderCall::Start { seed },
            _ => SenderCall::StartWith {
                seed,
                alignment: alignment(random),
            },
        }
    }

    /// Any admitted record, one with any number of alignment frames, or the
    /// record as it is with a part spoiled.
    fn given_sender(&mut self, index: usize) -> SenderCall {
        let random = &mut self.random;
        let record = self.records.senders[index];
        let record = match random.below(4) {
            0 => spoiled(record, &sender_parts(&record), random),
            1 => Sender {
                alignment: alignment(random),
                ..lane_records::sender(random)
            },
            _ => lane_records::sender(random),
        };
        SenderCall::Given { record }
    }

    fn send(&mut self, index: usize) -> SenderCall {
        let random = &mut self.random;
        let length = size(random.pick(&[4, 20, 60]), random);
        let mut samples = samples(length, random);
        if length > 0 && random.one_in(12) {
            let place = random.below(length);
            samples[place] = sample(random);
        }
        let sender = self.records.senders[index];
        // A number above 32 is refused.
        let left = sequence(sender.alignment.min(32)).saturating_sub(sender.position);
        let needed = 2 * (left as usize + length);
        let room = match random.below(6) {
            0 => size(needed, random),
            1 => (needed + random.below(4)).saturating_sub(2),
            _ => needed + random.below(10),
        };
        let room = self.room(room);
        SenderCall::Send { samples, room }
    }

    /// Puts what a sender wrote on the line to a receiver, most often that of
    /// the sender's index, with damage.
    fn put_on_line(&mut self, index: usize, written: &[u8]) {
        let random = &mut self.random;
        let receiver = match random.below(12) {
            0 => random.below(RECORDS),
            _ => index,
        };
        let damage = match random.below(3) {
            0 => random.pick(&DAMAGE),
            _ => Damage::None,
        };
        self.lines[receiver].extend(damage.done_to(written, random));
        if random.one_in(30) {
            let bit = random.one_in(2);
            self.lines[receiver].push(bit);
        }
    }

    // ---- Receivers ----

    pub fn receiver_call(&mut self) {
        let index = self.index();
        let is_refused = slow::receiver_sync(self.records.receivers[index]).refusal != 0;
        if self.lines[index].len() < 8 && !self.random.one_in(8) {
            // There is nothing to feed before something is sent.
            return self.sender_call();
        }
        let call = match self.random.below(24) {
            12.. if is_refused => ReceiverCall::Fresh,
            0 | 1 => self.given_receiver(index),
            2 => ReceiverCall::Fresh,
            3 => ReceiverCall::Sync,
            _ => self.feed(index),
        };
        let receiver = &mut self.records.receivers[index];
        match &call {
            ReceiverCall::Given { record } => *receiver = *record,
            ReceiverCall::Fresh => *receiver = slow::fresh(),
            ReceiverCall::Sync => *receiver = slow::receiver_sync(*receiver).receiver,
            ReceiverCall::Feed { bytes, room, .. } => {
                let fed = slow::feed(*receiver, bytes, &mut room.slots());
                *receiver = fed.receiver;
            }
        }
        self.list.push(Call::Receiver { index, call });
    }

    /// Any admitted record; one Locked on a sender as it is, or in First before
    /// its state; or the record as it is with a part spoiled.
    fn given_receiver(&mut self, index: usize) -> ReceiverCall {
        let sender = self.records.senders[index];
        let random = &mut self.random;
        let record = match random.below(8) {
            0 | 1 => {
                let record = self.records.receivers[index];
                // The parts are told apart in records that are admitted alone.
                let is_admitted = slow::receiver_sync(record).refusal == 0;
                match is_admitted {
                    true => spoiled(record, &receiver_parts(&record), random),
                    false => lane_records::receiver(FLASH, random),
                }
            }
            2 | 3 if slow::check_seed(sender.seed) == 0 => Receiver {
                results: results(random),
                samples: random.pick(&[0, u64::MAX - 1, u64::MAX]),
                ..locked(0, sender.state, sender.clock % 2).with_sums(lane_records::sums(random))
            },
            4 => first(0, random.below(2) as u32),
            _ => {
                let mode = random.pick(&MODES);
                lane_records::receiver(mode, random)
            }
        };
        ReceiverCall::Given { record }
    }

    /// Feeds a piece of the receiver's line, or bytes of any kind, by one of the
    /// two feeding calls.
    fn feed(&mut self, index: usize) -> ReceiverCall {
        let random = &mut self.random;
        let line = &mut self.lines[index];
        let waiting = line.len() / 8;
        let bytes = if waiting == 0 || random.one_in(16) {
            let length = size(40, random);
            match random.below(3) {
                0 => vec![random.pick(&[0x00, 0xFF, 0x55]); length],
                _ => random.bytes(length),
            }
        } else {
            let length = match random.below(3) {
                0 => waiting,
                _ => size(waiting, random),
            };
            bytes_of(&line.drain(..8 * length).collect::<Vec<bool>>())
        };
        let room = match random.below(8) {
            0 => size(bytes.len(), random),
            1 => bytes.len() / 2,
            _ => bytes.len() + random.below(4),
        };
        let call = random.pick(&FEED_CALLS);
        let room = self.room(room);
        ReceiverCall::Feed { call, bytes, room }
    }
}

/// Results of eight frames, at times with one faulty frame too many.
fn results(random: &mut Random) -> u32 {
    let results = random.pick(&lane_records::all_results());
    match random.one_in(4) {
        true => results | (1 << random.below(8)),
        false => results,
    }
}

/// A record with one of its parts set out of its range, or to any number.
fn spoiled<R>(mut record: R, parts: &[Part<R>], random: &mut Random) -> R {
    let part = &parts[random.below(parts.len())];
    let values = part.values_out(random);
    let value = match values.len() {
        0 => i64::from(any_word(random)),
        _ if random.one_in(4) => i64::from(any_word(random)),
        number => values[random.below(number)],
    };
    (part.set)(&mut record, value);
    record
}
