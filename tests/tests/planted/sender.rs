//! Mistakes in building a frame and in the sender.

use owsopel_tests::answers::Built;
use owsopel_tests::archive::Calls;
use owsopel_tests::records::{Sender, Sent, OUT_OF_SPACE};
use owsopel_tests::reference::calls;
use owsopel_tests::reference::frame::disparity;
use owsopel_tests::reference::functions::{list, list_mut};

use super::{Mistake, SLOW};

/// The frame inverted and R with it, if R came to exactly 16 or −16.
fn inverted_at_16(frame: u16, before: i32, after: i32) -> (u16, i32) {
    match after.abs() {
        16 => (!frame, before - disparity(frame)),
        _ => (frame, after),
    }
}

extern "C" fn build_inverting(sample: u16, state: u32, clock: u32, r: i32) -> Built {
    let mut built = calls::build(sample, state, clock, r);
    if built.refusal == 0 {
        (built.frame, built.r) = inverted_at_16(built.frame, r, built.r);
    }
    built
}

pub fn inverts_at_16_in_build() -> Mistake {
    Mistake {
        calls: Calls {
            name: "inverting at exactly 16, one frame",
            ows_build: build_inverting,
            ..SLOW
        },
        calls_needed: 1,
        told: "ows_build",
    }
}

/// Sends frame by frame.
unsafe extern "C" fn send_inverting(
    sender: Sender,
    samples: *const u16,
    samples_len: usize,
    buf: *mut u8,
    buf_len: usize,
) -> Sent {
    let (samples, buf) = (list(samples, samples_len), list_mut(buf, buf_len));
    let mut all = calls::send(sender, samples, &mut []);
    while all.refusal == 0 && all.stop == OUT_OF_SPACE && buf.len() - all.written >= 2 {
        let room = &mut buf[all.written..all.written + 2];
        let before = all.sender;
        let one = calls::send(before, &samples[all.taken..], room);
        let frame = u16::from_le_bytes([room[0], room[1]]);
        all.sender = one.sender;
        if before.position >= before.alignment {
            let (frame, r) = inverted_at_16(frame, before.r, one.sender.r);
            room.copy_from_slice(&frame.to_le_bytes());
            all.sender.r = r;
        }
        (all.taken, all.written) = (all.taken + one.taken, all.written + 2);
        all.stop = calls::send(all.sender, &samples[all.taken..], &mut []).stop;
    }
    all
}

pub fn inverts_at_16_in_send() -> Mistake {
    Mistake {
        calls: Calls {
            name: "inverting at exactly 16, sending",
            ows_send: send_inverting,
            ..SLOW
        },
        calls_needed: 2,
        told: "ows_send",
    }
}

unsafe extern "C" fn sync_clearing(sender: *mut Sender) -> u8 {
    let refusal = calls::sync(&mut *sender);
    if refusal == 0 {
        (*sender).r = 0;
    }
    refusal
}

pub fn sets_r_to_0_on_sync() -> Mistake {
    Mistake {
        calls: Calls {
            name: "setting R to 0 on SYNC",
            ows_sync: sync_clearing,
            ..SLOW
        },
        calls_needed: 2,
        told: "ows_sync",
    }
}

/// Looks at the sample before R.
extern "C" fn build_in_another_order(sample: u16, state: u32, clock: u32, r: i32) -> Built {
    let mut built = calls::build(sample, state, clock, r);
    if built.refusal == 5 && sample > 16383 {
        built.refusal = 4;
    }
    built
}

pub fn refuses_in_another_order() -> Mistake {
    Mistake {
        calls: Calls {
            name: "refusing 4 before 5",
            ows_build: build_in_another_order,
            ..SLOW
        },
        calls_needed: 1,
        told: "sample 16384, state 0x1, clock 0, R ",
    }
}
