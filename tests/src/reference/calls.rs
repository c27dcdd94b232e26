//! Every call of the C interface, answered by the slow version: "A refusal
//! gives its number and zeros for other values, returns the record unaltered,
//! and writes nothing."

use super::sender::Stop;
use super::strip::{write_in, Form};
use super::strip_conversion::convert;
use super::strip_reading::{self, Read};
use super::{frame, receiver, receiver_record, sender};
use crate::answers::{Built, Content, Converted, Reading, Sampled, Stepped, Written};
use crate::records::{Fed, Receiver, ReceiverSynced, Sender, Sent, Started};
use crate::records::{ALL_SENT, OUT_OF_SPACE, REFUSED};

/// The number of a refusal, 0 where there is none.
fn number_of<T>(answer: &Result<T, u8>) -> u8 {
    match answer {
        Ok(_) => 0,
        Err(refusal) => *refusal,
    }
}

// ---- Single frames ----

pub fn next(state: u32) -> Stepped {
    let answer = frame::next(state);
    Stepped {
        refusal: number_of(&answer),
        state: answer.unwrap_or(0),
    }
}

pub fn check_seed(seed: u32) -> u8 {
    number_of(&frame::check_seed(seed))
}

pub fn build(sample: u16, state: u32, clock: u32, r: i32) -> Built {
    let answer = frame::build(sample, state, clock, r);
    let (frame, r) = answer.unwrap_or((0, 0));
    Built {
        refusal: number_of(&answer),
        frame,
        r,
    }
}

pub fn read(frame: u16) -> Content {
    frame::read(frame)
}

pub fn read_sample(frame: u16, state: u32) -> Sampled {
    let answer = frame::read_sample(frame, state);
    Sampled {
        refusal: number_of(&answer),
        sample: answer.unwrap_or(0),
    }
}

// ---- The sender ----

pub fn start(seed: u32) -> Started {
    started(sender::start(seed))
}

pub fn start_with(seed: u32, alignment: u32) -> Started {
    started(sender::start_with(seed, alignment))
}

fn started(answer: Result<Sender, u8>) -> Started {
    Started {
        refusal: number_of(&answer),
        sender: answer.unwrap_or_default(),
    }
}

pub fn sync(record: &mut Sender) -> u8 {
    number_of(&sender::sync(record))
}

pub fn send(record: Sender, samples: &[u16], buf: &mut [u8]) -> Sent {
    let mut sender = record;
    let answer = sender::send(&mut sender, samples, buf);
    let refusal = number_of(&answer);
    let (stop, taken, written) = match answer {
        Err(_) => (REFUSED, 0, 0),
        Ok(sending) => {
            let stop = match sending.stop {
                Stop::AllSent => ALL_SENT,
                Stop::OutOfSpace => OUT_OF_SPACE,
            };
            (stop, sending.taken, sending.written)
        }
    };
    Sent {
        refusal,
        stop,
        sender,
        taken,
        written,
    }
}

// ---- The receiver ----

pub fn fresh() -> Receiver {
    receiver_record::to_record(&receiver::fresh())
}

pub fn receiver_sync(record: Receiver) -> ReceiverSynced {
    let mut receiver = record;
    let refusal = number_of(&receiver::sync(&mut receiver));
    ReceiverSynced { refusal, receiver }
}

pub fn feed(record: Receiver, bytes: &[u8], slots: &mut [u16]) -> Fed {
    let mut receiver = record;
    let answer = receiver::feed(&mut receiver, bytes, slots);
    let refusal = number_of(&answer);
    let (bytes, slots) = answer.map_or((0, 0), |used| (used.bytes, used.slots));
    Fed {
        refusal,
        receiver,
        bytes,
        slots,
    }
}

// ---- Strips ----

pub fn write_strip(lane: u8, items: &[u16], buf: &mut [u8]) -> Written {
    written(write_in(Form::One, lane, items, buf))
}

pub fn write_short_strip(lane: u8, items: &[u16], buf: &mut [u8]) -> Written {
    written(write_in(Form::Two, lane, items, buf))
}

fn written(answer: Result<usize, u8>) -> Written {
    Written {
        refusal: number_of(&answer),
        bytes: answer.unwrap_or(0),
    }
}

pub fn read_strip(bytes: &[u8], slots: &mut [u16]) -> Reading {
    reading(strip_reading::read(bytes, slots))
}

pub fn check_strip(bytes: &[u8]) -> Reading {
    reading(strip_reading::check(bytes).map(|(read, _)| read))
}

fn reading(answer: Result<Read, u8>) -> Reading {
    match answer {
        Ok(read) => Reading {
            refusal: 0,
            lane: read.lane,
            count: read.count,
            form: read.form.number(),
            used: read.used,
        },
        Err(refusal) => Reading {
            refusal,
            ..Reading::default()
        },
    }
}

pub fn shorten_strip(bytes: &[u8], buf: &mut [u8]) -> Converted {
    converted(Form::Two, bytes, buf)
}

pub fn expand_strip(bytes: &[u8], buf: &mut [u8]) -> Converted {
    converted(Form::One, bytes, buf)
}

fn converted(wanted: Form, bytes: &[u8], buf: &mut [u8]) -> Converted {
    let answer = convert(wanted, bytes, buf);
    let refusal = number_of(&answer);
    let (used, bytes) = answer.map_or((0, 0), |told| (told.used, told.written));
    Converted {
        refusal,
        used,
        bytes,
    }
}
