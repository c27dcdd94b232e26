//! The natural version's calls on the C interface's flat records.

use super::receiver::{Mode, Part, Receiver, Sums, LOSS};
use super::sender::{check_seed, is_alignment, Sender, Stop};
use crate::records::{self, Fed, Lane, ReceiverSynced, Sent, Started};

/// The natural version as a lane to be compared.
pub struct Natural;

fn clock_bit(clock: u32) -> Option<bool> {
    match clock {
        0 => Some(false),
        1 => Some(true),
        _ => None,
    }
}

fn is_state(state: u32) -> bool {
    (1..=0x1FFFF).contains(&state)
}

fn sender_of(record: records::Sender) -> Option<Sender> {
    let records::Sender {
        seed,
        state,
        clock,
        r,
        position,
        alignment,
    } = record;
    let in_range = check_seed(seed).is_ok()
        && is_state(state)
        && (-16..=16).contains(&r)
        && is_alignment(alignment);
    if !in_range {
        return None;
    }
    let sender = Sender {
        seed,
        state,
        clock: clock_bit(clock)?,
        r,
        position,
        alignment,
    };
    (position <= sender.sequence()).then_some(sender)
}

fn sender_record(sender: &Sender) -> records::Sender {
    records::Sender {
        seed: sender.seed,
        state: sender.state,
        clock: u32::from(sender.clock),
        r: sender.r,
        position: sender.position,
        alignment: sender.alignment,
    }
}

fn started(answer: Result<Sender, u8>) -> Started {
    match answer {
        Ok(sender) => Started {
            refusal: 0,
            sender: sender_record(&sender),
        },
        Err(refusal) => Started {
            refusal,
            sender: records::Sender::default(),
        },
    }
}

/// The bits held of a mode that holds at most that many.
fn held(record: &records::Receiver, most: u32) -> Option<Part> {
    let fits = record.count <= most && record.bits < 1 << record.count;
    fits.then_some(Part {
        bits: record.bits as u16,
        count: record.count,
    })
}

/// Whether the parts that the mode has not are 0.
fn is_bare(record: &records::Receiver) -> bool {
    let mode = record.mode;
    let frame = mode == records::FLASH || record.frame == 0;
    let word = mode == records::FIRST || record.word == 0;
    let read = mode == records::PROVE || record.read == 0;
    let results = mode == records::LOCKED || record.results == 0;
    let state = mode >= records::PROVE || record.state == 0;
    let clock = mode >= records::FIRST || record.clock == 0;
    frame && word && read && results && state && clock
}

fn mode_of(record: &records::Receiver) -> Option<Mode> {
    let clock = clock_bit(record.clock)?;
    let state = record.state;
    let mode = match record.mode {
        records::HUNT => {
            let (bits, count) = (record.bits, record.count);
            if count > 32 || u64::from(bits) >= 1 << count {
                return None;
            }
            let bits = bits.checked_shl(32 - count).unwrap_or(0);
            Mode::Hunt { bits, count }
        }
        records::FLASH if matches!(record.frame, 0xFF00 | 0x00FF) => Mode::Flash {
            part: held(record, 15)?,
            frame: record.frame as u16,
        },
        records::FIRST if record.word <= 0x3FFF => Mode::First {
            part: held(record, 15)?,
            data: record.word as u16,
            clock,
        },
        records::PROVE if (2..=31).contains(&record.read) && is_state(state) => Mode::Prove {
            part: held(record, 15)?,
            read: record.read,
            state,
            clock,
        },
        records::LOCKED if record.results.count_ones() < LOSS && is_state(state) => Mode::Locked {
            part: held(record, 15)?,
            results: record.results.try_into().ok()?,
            state,
            clock,
        },
        _ => return None,
    };
    is_bare(record).then_some(mode)
}

fn receiver_of(record: &records::Receiver) -> Option<Receiver> {
    Some(Receiver {
        mode: mode_of(record)?,
        samples: record.samples,
        gaps: record.gaps,
        losses: record.losses,
        sums: Sums {
            running: record.sum,
            lowest: record.lowest,
            highest: record.highest,
        },
    })
}

fn receiver_record(receiver: &Receiver) -> records::Receiver {
    let held = |part: Part| (u32::from(part.bits), part.count);
    let (record, (bits, count)) = match receiver.mode {
        Mode::Hunt { bits, count } => {
            let bits = bits.checked_shr(32 - count).unwrap_or(0);
            (records::Receiver::default(), (bits, count))
        }
        Mode::Flash { part, frame } => (records::flash(frame.into()), held(part)),
        Mode::First { part, data, clock } => {
            (records::first(data.into(), clock.into()), held(part))
        }
        Mode::Prove {
            part,
            read,
            state,
            clock,
        } => (records::prove(read, state, clock.into()), held(part)),
        Mode::Locked {
            part,
            results,
            state,
            clock,
        } => (
            records::locked(results.into(), state, clock.into()),
            held(part),
        ),
    };
    records::Receiver {
        bits,
        count,
        samples: receiver.samples,
        gaps: receiver.gaps,
        losses: receiver.losses,
        sum: receiver.sums.running,
        lowest: receiver.sums.lowest,
        highest: receiver.sums.highest,
        ..record
    }
}

/// The answer of a way to feed, which gives the bytes and the slots used.
pub(super) fn fed(
    record: records::Receiver,
    feed: impl FnOnce(&mut Receiver) -> (usize, usize),
) -> Fed {
    let (refusal, receiver, (bytes, slots)) = match receiver_of(&record) {
        None => (3, record, (0, 0)),
        Some(mut receiver) => {
            let used = feed(&mut receiver);
            (0, receiver_record(&receiver), used)
        }
    };
    Fed {
        refusal,
        receiver,
        bytes,
        slots,
    }
}

impl Lane for Natural {
    const NAME: &'static str = "natural version";

    fn start(seed: u32) -> Started {
        started(Sender::start(seed))
    }

    fn start_with(seed: u32, alignment: u32) -> Started {
        started(Sender::start_with(seed, alignment))
    }

    fn sync(sender: &mut records::Sender) -> u8 {
        let Some(mut synced) = sender_of(*sender) else {
            return 3;
        };
        synced.sync();
        *sender = sender_record(&synced);
        0
    }

    fn send(record: records::Sender, samples: &[u16], buf: &mut [u8]) -> Sent {
        let refused = |refusal| Sent {
            refusal,
            stop: records::REFUSED,
            sender: record,
            taken: 0,
            written: 0,
        };
        let Some(mut sender) = sender_of(record) else {
            return refused(3);
        };
        let sent = match sender.send(samples, buf) {
            Ok(sent) => sent,
            Err(refusal) => return refused(refusal),
        };
        Sent {
            refusal: 0,
            stop: match sent.stop {
                Stop::AllSent => records::ALL_SENT,
                Stop::OutOfSpace => records::OUT_OF_SPACE,
            },
            sender: sender_record(&sender),
            taken: sent.taken,
            written: sent.written,
        }
    }

    fn fresh() -> records::Receiver {
        receiver_record(&Receiver::default())
    }

    fn receiver_sync(record: records::Receiver) -> ReceiverSynced {
        let (refusal, receiver) = match receiver_of(&record) {
            None => (3, record),
            Some(mut receiver) => {
                receiver.sync();
                (0, receiver_record(&receiver))
            }
        };
        ReceiverSynced { refusal, receiver }
    }

    fn feed(record: records::Receiver, bytes: &[u8], slots: &mut [u16]) -> Fed {
        fed(record, |receiver| receiver.feed(bytes, slots))
    }

    fn feed_frames(record: records::Receiver, bytes: &[u8], slots: &mut [u16]) -> Fed {
        Self::feed(record, bytes, slots)
    }
}
