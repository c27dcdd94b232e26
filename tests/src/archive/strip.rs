//! The archive's calls on strips.

use super::{fail, short, Archive, Direct, ARCHIVE};
use crate::answers::{Converted, Reading, Strips, Written};

/// The answer, or the end of the run with what was asked.
#[track_caller]
fn answer<T>(answer: Result<T, String>, asked: impl FnOnce() -> String) -> T {
    match answer {
        Ok(told) => told,
        Err(wrong) => fail(&format!("{}: {wrong}", asked())),
    }
}

impl Strips for Archive {
    const NAME: &'static str = ARCHIVE.name;

    #[track_caller]
    fn write_strip(lane: u8, items: &[u16], buf: &mut [u8]) -> Written {
        let room = buf.len();
        answer(ARCHIVE.write_strip(lane, items, buf), || {
            let items = short(items);
            format!("write, lane {lane}, items {items}, buffer of {room} bytes")
        })
    }

    #[track_caller]
    fn write_short_strip(lane: u8, items: &[u16], buf: &mut [u8]) -> Written {
        let room = buf.len();
        answer(ARCHIVE.write_short_strip(lane, items, buf), || {
            let items = short(items);
            format!("write short, lane {lane}, items {items}, buffer of {room} bytes")
        })
    }

    #[track_caller]
    fn read_strip(bytes: &[u8], slots: &mut [u16]) -> Reading {
        let room = slots.len();
        answer(ARCHIVE.read_strip(bytes, slots), || {
            format!("read, bytes {}, {room} slots", short(bytes))
        })
    }

    #[track_caller]
    fn check_strip(bytes: &[u8]) -> Reading {
        answer(ARCHIVE.check_strip(bytes), || {
            format!("check, bytes {}", short(bytes))
        })
    }

    #[track_caller]
    fn shorten_strip(bytes: &[u8], buf: &mut [u8]) -> Converted {
        let room = buf.len();
        answer(ARCHIVE.shorten_strip(bytes, buf), || {
            format!("shorten, bytes {}, buffer of {room} bytes", short(bytes))
        })
    }

    #[track_caller]
    fn expand_strip(bytes: &[u8], buf: &mut [u8]) -> Converted {
        let room = buf.len();
        answer(ARCHIVE.expand_strip(bytes, buf), || {
            format!("expand, bytes {}, buffer of {room} bytes", short(bytes))
        })
    }
}

impl Strips for Direct {
    const NAME: &'static str = ARCHIVE.name;

    fn write_strip(lane: u8, items: &[u16], buf: &mut [u8]) -> Written {
        let (given, room) = (items.len(), buf.len());
        // SAFETY: a slice is aligned and holds for its length.
        unsafe { (ARCHIVE.ows_write_strip)(lane, items.as_ptr(), given, buf.as_mut_ptr(), room) }
    }

    fn write_short_strip(lane: u8, items: &[u16], buf: &mut [u8]) -> Written {
        let (given, room) = (items.len(), buf.len());
        let call = ARCHIVE.ows_write_short_strip;
        // SAFETY: as in `write_strip`.
        unsafe { call(lane, items.as_ptr(), given, buf.as_mut_ptr(), room) }
    }

    fn read_strip(bytes: &[u8], slots: &mut [u16]) -> Reading {
        let (given, room) = (bytes.len(), slots.len());
        // SAFETY: as in `write_strip`.
        unsafe { (ARCHIVE.ows_read_strip)(bytes.as_ptr(), given, slots.as_mut_ptr(), room) }
    }

    fn check_strip(bytes: &[u8]) -> Reading {
        // SAFETY: as in `write_strip`.
        unsafe { (ARCHIVE.ows_check_strip)(bytes.as_ptr(), bytes.len()) }
    }

    fn shorten_strip(bytes: &[u8], buf: &mut [u8]) -> Converted {
        let (given, room) = (bytes.len(), buf.len());
        // SAFETY: as in `write_strip`.
        unsafe { (ARCHIVE.ows_shorten_strip)(bytes.as_ptr(), given, buf.as_mut_ptr(), room) }
    }

    fn expand_strip(bytes: &[u8], buf: &mut [u8]) -> Converted {
        let (given, room) = (bytes.len(), buf.len());
        // SAFETY: as in `write_strip`.
        unsafe { (ARCHIVE.ows_expand_strip)(bytes.as_ptr(), given, buf.as_mut_ptr(), room) }
    }
}
