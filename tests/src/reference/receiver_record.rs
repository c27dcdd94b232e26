//! The receiver's flat record, which the C interface has, and the slow
//! version's receiver; with the row of Refusals on a record.

use super::frame::{bits, is_clock_bit, is_state, number};
use super::receiver::{four_are_faulty, Mode, Receiver};
use super::sums::Sums;
use crate::records;

/// The mode that the flat record has, its numbers in range.
/// "its Flash frame is 0xFF00 or 0x00FF, its data are 0 to 16383, its states 1
/// to 0x1FFFF, its clock bits 0 or 1 and its counts as given above"; of its
/// eight results, "one with four or more of them faulty is refused with 3".
fn mode_of(record: &records::Receiver) -> Option<Mode> {
    let (state, clock) = (record.state, record.clock);
    let (mode, in_range) = match record.mode {
        records::HUNT => (Mode::Hunt, true),
        records::FLASH => {
            let frame = record.frame as u16;
            (Mode::Flash { frame }, [0xFF00, 0x00FF].contains(&frame))
        }
        records::FIRST => {
            let data = record.word as u16;
            (Mode::First { data, clock }, data <= 16383)
        }
        records::PROVE => {
            let read = record.read;
            let in_range = (2..=31).contains(&read) && is_state(state);
            (Mode::Prove { read, state, clock }, in_range)
        }
        records::LOCKED => {
            let results = bits(record.results);
            let in_range = !four_are_faulty(results) && is_state(state);
            let mode = Mode::Locked {
                results,
                state,
                clock,
            };
            (mode, in_range)
        }
        _ => return None,
    };
    (in_range && is_clock_bit(clock)).then_some(mode)
}

/// The receiver of a flat record. Refused 3 for the record.
/// "bit places not held are 0, and totals are free"; so are the sums; a part that
/// the mode has not is 0. A record is admitted only if the receiver gives it back.
pub fn from_record(record: &records::Receiver) -> Result<Receiver, u8> {
    let Some(mode) = mode_of(record) else {
        return Err(3);
    };
    let most = if mode == Mode::Hunt { 32 } else { 15 };
    if record.count > most {
        return Err(3);
    }
    let receiver = Receiver {
        mode,
        held: bits::<32>(record.bits)[..record.count as usize].to_vec(),
        samples: record.samples,
        gaps: record.gaps,
        losses: record.losses,
        sums: Sums {
            running: record.sum,
            lowest: record.lowest,
            highest: record.highest,
        },
    };
    if to_record(&receiver) != *record {
        return Err(3);
    }
    Ok(receiver)
}

/// The flat record of a receiver.
pub fn to_record(receiver: &Receiver) -> records::Receiver {
    let mut record = records::Receiver {
        bits: number(&receiver.held),
        count: receiver.held.len() as u32,
        samples: receiver.samples,
        gaps: receiver.gaps,
        losses: receiver.losses,
        sum: receiver.sums.running,
        lowest: receiver.sums.lowest,
        highest: receiver.sums.highest,
        ..records::Receiver::default()
    };
    match receiver.mode {
        Mode::Hunt => record.mode = records::HUNT,
        Mode::Flash { frame } => {
            record.mode = records::FLASH;
            record.frame = u32::from(frame);
        }
        Mode::First { data, clock } => {
            record.mode = records::FIRST;
            (record.word, record.clock) = (u32::from(data), clock);
        }
        Mode::Prove { read, state, clock } => {
            record.mode = records::PROVE;
            (record.read, record.state, record.clock) = (read, state, clock);
        }
        Mode::Locked {
            results,
            state,
            clock,
        } => {
            record.mode = records::LOCKED;
            (record.results, record.state, record.clock) = (number(&results), state, clock);
        }
    }
    record
}
