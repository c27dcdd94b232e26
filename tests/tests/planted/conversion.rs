//! Mistakes in converting strips, which document 02's Q-8 brought.

use owsopel_tests::answers::Converted;
use owsopel_tests::archive::Calls;
use owsopel_tests::reference::functions::{expand_strip, list, list_mut, shorten_strip};

use super::{mistake, Mistake, SLOW};

/// The lane left out where the form changes.
unsafe extern "C" fn expand_without_lane(
    bytes: *const u8,
    bytes_len: usize,
    buf: *mut u8,
    buf_len: usize,
) -> Converted {
    let converted = expand_strip(bytes, bytes_len, buf, buf_len);
    if converted.refusal == 0 && list(bytes, bytes_len)[0] >= 0xE0 {
        list_mut(buf, buf_len)[2] = 0;
    }
    converted
}

/// Writes the first byte before it finds that the buffer is too short.
unsafe extern "C" fn shorten_and_refuse(
    bytes: *const u8,
    bytes_len: usize,
    buf: *mut u8,
    buf_len: usize,
) -> Converted {
    let converted = shorten_strip(bytes, bytes_len, buf, buf_len);
    if converted.refusal == 8 && buf_len > 0 {
        buf.write(list(bytes, bytes_len)[0] | 0xE0);
    }
    converted
}

/// Carries over the bytes after the strip as well, where there is room.
unsafe extern "C" fn shorten_and_more(
    bytes: *const u8,
    bytes_len: usize,
    buf: *mut u8,
    buf_len: usize,
) -> Converted {
    let converted = shorten_strip(bytes, bytes_len, buf, buf_len);
    let carried = converted.refusal == 0 && list(bytes, bytes_len)[0] >= 0xE0;
    if carried && bytes_len > converted.used && bytes_len <= buf_len {
        list_mut(buf, bytes_len).copy_from_slice(list(bytes, bytes_len));
    }
    converted
}

/// Tells the bytes written as those used.
unsafe extern "C" fn expand_as_used(
    bytes: *const u8,
    bytes_len: usize,
    buf: *mut u8,
    buf_len: usize,
) -> Converted {
    let mut converted = expand_strip(bytes, bytes_len, buf, buf_len);
    converted.used = converted.bytes;
    converted
}

/// 8 before what the walk finds.
unsafe extern "C" fn expand_room_first(
    bytes: *const u8,
    bytes_len: usize,
    buf: *mut u8,
    buf_len: usize,
) -> Converted {
    let mut converted = expand_strip(bytes, bytes_len, buf, buf_len);
    if matches!(converted.refusal, 12 | 13 | 21) && buf_len < 3 {
        converted.refusal = 8;
    }
    converted
}

/// Clears the byte after the buffer, where all of this is used.
unsafe extern "C" fn expand_past_buffer(
    bytes: *const u8,
    bytes_len: usize,
    buf: *mut u8,
    buf_len: usize,
) -> Converted {
    let converted = expand_strip(bytes, bytes_len, buf, buf_len);
    if converted.refusal == 0 && converted.bytes == buf_len {
        buf.add(buf_len).write(0);
    }
    converted
}

/// Writes to the bytes it reads.
unsafe extern "C" fn shorten_and_alter(
    bytes: *const u8,
    bytes_len: usize,
    buf: *mut u8,
    buf_len: usize,
) -> Converted {
    let converted = shorten_strip(bytes, bytes_len, buf, buf_len);
    if converted.refusal == 0 {
        list_mut(bytes.cast_mut(), bytes_len)[0] |= 0xE0;
    }
    converted
}

// ---- The versions ----

type ConvertStrip = unsafe extern "C" fn(*const u8, usize, *mut u8, usize) -> Converted;

fn shortening(name: &'static str, ows_shorten_strip: ConvertStrip, told: &'static str) -> Mistake {
    let calls = Calls {
        ows_shorten_strip,
        ..SLOW
    };
    mistake(calls, name, 1, told)
}

fn expanding(name: &'static str, ows_expand_strip: ConvertStrip, told: &'static str) -> Mistake {
    let calls = Calls {
        ows_expand_strip,
        ..SLOW
    };
    mistake(calls, name, 1, told)
}

pub fn conversion_mistakes() -> Vec<Mistake> {
    let cut = "slow version: Converted { refusal: 12";
    let past = "guard 1 after the buffer became 0x0";
    vec![
        expanding(
            "the lane left out",
            expand_without_lane,
            "bytes 3 [e0 0 1], room for 3",
        ),
        shortening(
            "a refusal that writes",
            shorten_and_refuse,
            "bytes 3 [0 0 0], room for 1",
        ),
        shortening(
            "bytes after carried over",
            shorten_and_more,
            "bytes 4 [e0 0 0 0], room for 4",
        ),
        expanding(
            "written told as used",
            expand_as_used,
            "refusal: 0, used: 5, bytes: 4",
        ),
        expanding("8 before the walk", expand_room_first, cut),
        expanding("past the buffer", expand_past_buffer, past),
        shortening(
            "altering what is converted",
            shorten_and_alter,
            "the bytes became",
        ),
    ]
}
