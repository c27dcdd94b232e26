//! Every part of every record, spoiled in turn, and at the edges of its range,
//! through the archive: refused with 3, or taken.

use owsopel_tests::archive::{fail, Archive};
use owsopel_tests::lane_comparison::LaneComparison;
use owsopel_tests::lane_records::{self, sequence, wrong_alignments, ALIGNMENTS, MODES};
use owsopel_tests::long_lines::samples;
use owsopel_tests::random::Random;
use owsopel_tests::ranges::{receiver_parts, sender_parts};
use owsopel_tests::records::{Receiver, Sender, HUNT};

type Comparison = LaneComparison<Archive>;

/// The records of each kind whose parts are tried.
const RECORDS: usize = 60;

/// The refusals of the sender's two calls on a record, and whether one altered
/// it. The buffers are looked at by the comparison.
#[track_caller]
fn sender_calls(comparison: &mut Comparison, record: Sender) -> ([u8; 2], bool) {
    let length = comparison.random.below(5);
    let mut samples = samples(length, &mut comparison.random);
    // Refusal 3 comes before 4.
    let no_sample = comparison.random.one_in(4) && length > 0;
    if no_sample {
        samples[0] = 16384;
    }
    let room = comparison.random.below(12);
    let (mut synced, mut sent) = (record, record);
    let first = comparison.sync(&mut synced);
    let (answer, _) = comparison.send(&mut sent, &samples, room);
    let second = match answer.refusal {
        4 if no_sample => 0,
        refusal => refusal,
    };
    ([first, second], synced != record || sent != record)
}

/// The same for the receiver's calls; both that feed are made and give the same.
#[track_caller]
fn receiver_calls(comparison: &mut Comparison, record: Receiver) -> ([u8; 2], bool) {
    let length = comparison.random.below(12);
    let bytes = comparison.random.bytes(length);
    let room = comparison.random.below(5);
    let (mut synced, mut fed) = (record, record);
    let first = comparison.receiver_sync(&mut synced);
    let (answer, _) = comparison.feed(&mut fed, &bytes, room);
    ([first, answer.refusal], synced != record || fed != record)
}

/// A record whose part was set to a value in its range must be taken.
#[track_caller]
fn demand_taken(refusals: [u8; 2], name: &str, value: i64) {
    if refusals != [0, 0] {
        fail(&format!(
            "{name} {value} is in its range, but SYNC and the other call gave {refusals:?}"
        ));
    }
}

/// A record whose part was set to a value out of its range must be refused.
#[track_caller]
fn demand_refused((refusals, altered): ([u8; 2], bool), name: &str, value: i64) {
    if refusals != [3, 3] || altered {
        fail(&format!(
            "{name} {value} is out of its range, but SYNC and the other call gave {refusals:?}, \
             record altered: {altered}"
        ));
    }
}

#[test]
fn every_part_of_the_sender() {
    let mut comparison = Comparison::new(201);
    for index in 0..RECORDS {
        let record = lane_records::sender_with(ALIGNMENTS[index % 11], &mut comparison.random);
        for part in sender_parts(&record) {
            for value in part.values_in(&mut comparison.random) {
                let mut record = record;
                (part.set)(&mut record, value);
                let (refusals, _) = sender_calls(&mut comparison, record);
                demand_taken(refusals, part.name, value);
            }
            for value in part.values_out(&mut comparison.random) {
                let mut record = record;
                (part.set)(&mut record, value);
                let calls = sender_calls(&mut comparison, record);
                demand_refused(calls, part.name, value);
            }
        }
    }
    comparison.end("every part of the sender", 1_000, &[0, 3, 4]);
}

/// Every number of alignment frames with every position up to 110. With a
/// permitted one the positions up to the sequence's end are taken, and those
/// after it refused; with any other number all are.
#[test]
fn every_number_of_alignment_frames_with_every_position() {
    let mut comparison = Comparison::new(206);
    for alignment in ALIGNMENTS.into_iter().chain(wrong_alignments()) {
        let name = format!("{alignment} alignment frames with position");
        let is_permitted = ALIGNMENTS.contains(&alignment);
        for position in 0..=110 {
            let record = Sender {
                position,
                alignment,
                ..lane_records::sender(&mut comparison.random)
            };
            let calls = sender_calls(&mut comparison, record);
            if is_permitted && position <= sequence(alignment) {
                demand_taken(calls.0, &name, position.into());
            } else {
                demand_refused(calls, &name, position.into());
            }
        }
    }
    comparison.end("every number with every position", 500, &[0, 3, 4]);
}

#[test]
fn every_part_of_the_receiver_in_each_mode() {
    let mut comparison = Comparison::new(202);
    for mode in MODES {
        for index in 0..RECORDS {
            let mut record = lane_records::receiver(mode, &mut comparison.random);
            if index % 4 == 0 {
                // Then every count is in range.
                record.bits = 0;
            }
            for part in receiver_parts(&record) {
                for value in part.values_in(&mut comparison.random) {
                    let mut record = record;
                    (part.set)(&mut record, value);
                    let (refusals, _) = receiver_calls(&mut comparison, record);
                    demand_taken(refusals, part.name, value);
                }
                for value in part.values_out(&mut comparison.random) {
                    let mut record = record;
                    (part.set)(&mut record, value);
                    let calls = receiver_calls(&mut comparison, record);
                    demand_refused(calls, part.name, value);
                }
            }
        }
    }
    comparison.end("every part of the receiver", 0, &[0, 3]);
}

/// "a record may hold any three such numbers": in any order, and at the limits.
#[test]
fn any_three_sums_are_taken() {
    let mut comparison = Comparison::new(207);
    let numbers = [i32::MIN, i32::MIN + 1, -1, 0, 1, i32::MAX - 1, i32::MAX];
    for mode in MODES {
        for (sum, lowest) in numbers.into_iter().flat_map(|n| numbers.map(|m| (n, m))) {
            for highest in numbers {
                let record = lane_records::receiver(mode, &mut comparison.random);
                let record = record.with_sums([sum, lowest, highest]);
                let (refusals, _) = receiver_calls(&mut comparison, record);
                demand_taken(refusals, "the highest sum", highest.into());
            }
        }
    }
    comparison.end("any three sums", 0, &[0]);
}

/// Each place not held, by itself, in every mode and with every count.
#[test]
fn every_place_not_held() {
    let mut comparison = Comparison::new(203);
    for mode in MODES {
        let most = if mode == HUNT { 32 } else { 15 };
        for count in 0..=most {
            let mut record = lane_records::receiver(mode, &mut comparison.random);
            record.count = count;
            for place in 0..32 {
                record.bits = 1 << place;
                let calls = receiver_calls(&mut comparison, record);
                if place < count {
                    demand_taken(calls.0, "bits", i64::from(record.bits));
                } else {
                    demand_refused(calls, "bits", i64::from(record.bits));
                }
            }
        }
    }
    comparison.end("every place not held", 0, &[0, 3]);
}

/// Records with any of their parts replaced, most of them refused, against the
/// slow version.
#[test]
fn records_with_parts_replaced() {
    let mut comparison = Comparison::new(204);
    for index in 0..60_000 {
        let mut sender = lane_records::sender(&mut comparison.random);
        for part in sender_parts(&sender) {
            replace(part.set, &mut sender, &mut comparison.random);
        }
        sender_calls(&mut comparison, sender);

        let mode = MODES[index % 5];
        let mut receiver = lane_records::receiver(mode, &mut comparison.random);
        for part in receiver_parts(&receiver) {
            replace(part.set, &mut receiver, &mut comparison.random);
        }
        receiver_calls(&mut comparison, receiver);
    }
    comparison.end("records with parts replaced", 1_000, &[0, 3, 4]);
}

/// Once in four times, sets a part to any number, often a small one.
fn replace<R>(set: fn(&mut R, i64), record: &mut R, random: &mut Random) {
    if random.one_in(4) {
        let word = random.word() >> random.below(32);
        set(record, i64::from(word as i32));
    }
}

/// Every seed up to 0x24000, and seeds of single bits and of any bits.
#[test]
fn every_seed() {
    let mut comparison = Comparison::new(205);
    for seed in 0..0x24000 {
        comparison.start(seed);
    }
    for k in 17..32 {
        for low in [0, 1, 0x00FF, 0x40FF, 0x1FFFF] {
            let started = comparison.start((1 << k) + low);
            assert_eq!(started.refusal, 1);
        }
    }
    for _ in 0..10_000 {
        let seed = comparison.random.word();
        comparison.start(seed);
    }
    comparison.end("every seed", 0, &[0, 1]);
}
