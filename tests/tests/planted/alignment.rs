//! Mistakes in the number of alignment frames.

use owsopel_tests::archive::Calls;
use owsopel_tests::lane_records::{sequence, ALIGNMENTS};
use owsopel_tests::records::{Sender, Sent, Started, ALL_SENT, OUT_OF_SPACE};
use owsopel_tests::reference::functions::{list, list_mut};
use owsopel_tests::reference::{calls, functions};

use super::{Mistake, SLOW};

// ---- Starting ----

/// Takes a number that is not permitted.
extern "C" fn start_taking<const NUMBER: u32>(seed: u32, alignment: u32) -> Started {
    let mut started = calls::start_with(seed, alignment);
    if started.refusal == 19 && alignment == NUMBER {
        started = calls::start(seed);
        started.sender.alignment = NUMBER;
    }
    started
}

/// Looks at the number before the seed.
extern "C" fn start_in_another_order(seed: u32, alignment: u32) -> Started {
    let mut started = calls::start_with(seed, alignment);
    if !ALIGNMENTS.contains(&alignment) {
        started.refusal = 19;
    }
    started
}

type StartWith = extern "C" fn(u32, u32) -> Started;

fn in_start(name: &'static str, ows_start_with: StartWith, told: &'static str) -> Mistake {
    Mistake {
        calls: Calls {
            name,
            ows_start_with,
            ..SLOW
        },
        calls_needed: 1,
        told,
    }
}

// ---- SYNC ----

/// Takes a record with a number that is not permitted.
unsafe extern "C" fn sync_taking<const NUMBER: u32>(sender: *mut Sender) -> u8 {
    let sender = &mut *sender;
    if sender.alignment != NUMBER {
        return calls::sync(sender);
    }
    sender.alignment = 32;
    let refusal = calls::sync(sender);
    sender.alignment = NUMBER;
    refusal
}

unsafe extern "C" fn sync_forgetting(sender: *mut Sender) -> u8 {
    let refusal = calls::sync(&mut *sender);
    if refusal == 0 {
        (*sender).alignment = 32;
    }
    refusal
}

type Sync = unsafe extern "C" fn(*mut Sender) -> u8;

fn in_sync(name: &'static str, ows_sync: Sync, told: &'static str) -> Mistake {
    Mistake {
        calls: Calls {
            name,
            ows_sync,
            ..SLOW
        },
        calls_needed: 2,
        told,
    }
}

// ---- Sending ----

/// Sends frames of sample 0 up to position 63, whatever the number.
unsafe extern "C" fn send_up_to_64(
    sender: Sender,
    samples: *const u16,
    samples_len: usize,
    buf: *mut u8,
    buf_len: usize,
) -> Sent {
    let (samples, buf) = (list(samples, samples_len), list_mut(buf, buf_len));
    let mut all = calls::send(sender, samples, &mut []);
    while all.refusal == 0 {
        let before = all.sender;
        let is_sample = before.position == 64;
        all.stop = match is_sample && all.taken == samples.len() {
            true => ALL_SENT,
            false => OUT_OF_SPACE,
        };
        if all.stop == ALL_SENT || buf.len() - all.written < 2 {
            break;
        }
        let sample = if is_sample { samples[all.taken] } else { 0 };
        let one = Sender {
            position: before.position.min(sequence(before.alignment)),
            ..before
        };
        let room = &mut buf[all.written..all.written + 2];
        all.sender = Sender {
            position: (before.position + 1).min(64),
            ..calls::send(one, &[sample], room).sender
        };
        all.taken += usize::from(is_sample);
        all.written += 2;
    }
    all
}

/// Takes a record with a number that is not permitted.
unsafe extern "C" fn send_taking<const NUMBER: u32>(
    sender: Sender,
    samples: *const u16,
    samples_len: usize,
    buf: *mut u8,
    buf_len: usize,
) -> Sent {
    let alignment = match sender.alignment == NUMBER {
        true => 32,
        false => sender.alignment,
    };
    let permitted = Sender {
        alignment,
        ..sender
    };
    let mut sent = functions::send(permitted, samples, samples_len, buf, buf_len);
    sent.sender.alignment = sender.alignment;
    sent
}

type Send = unsafe extern "C" fn(Sender, *const u16, usize, *mut u8, usize) -> Sent;

fn in_send(name: &'static str, ows_send: Send, told: &'static str) -> Mistake {
    Mistake {
        calls: Calls {
            name,
            ows_send,
            ..SLOW
        },
        calls_needed: 2,
        told,
    }
}

pub fn alignment_mistakes() -> Vec<Mistake> {
    vec![
        in_start("10 taken", start_taking::<10>, "alignment 10\n"),
        in_start("11 taken", start_taking::<11>, "alignment 11\n"),
        in_start("34 taken", start_taking::<34>, "alignment 34\n"),
        in_start(
            "19 before the seed",
            start_in_another_order,
            "seed 0x0, alignment 0\n",
        ),
        in_sync("a record with 10 taken", sync_taking::<10>, "alignment: 10"),
        in_sync("a record with 11 taken", sync_taking::<11>, "alignment: 11"),
        in_sync("a record with 34 taken", sync_taking::<34>, "alignment: 34"),
        in_sync("SYNC forgets the number", sync_forgetting, "alignment: 12"),
        in_send("34 taken in sending", send_taking::<34>, "alignment: 34"),
        in_send("the sequence ends at 64", send_up_to_64, "alignment: 12"),
    ]
}
