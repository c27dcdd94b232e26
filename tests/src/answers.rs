//! The answers of the calls on single frames and on strips, as the C interface
//! has them.

/// The answer of `ows_next`.
#[repr(C)]
#[derive(Clone, Copy, Debug, Default, PartialEq, Eq)]
pub struct Stepped {
    pub refusal: u8,
    pub state: u32,
}

/// The answer of `ows_build`.
#[repr(C)]
#[derive(Clone, Copy, Debug, Default, PartialEq, Eq)]
pub struct Built {
    pub refusal: u8,
    pub frame: u16,
    pub r: i32,
}

/// The answer of `ows_read`: clock bit and data, the inversion undone; the ones
/// minus the zeros as received, and whether the frame was inverted, 0 or 1.
#[repr(C)]
#[derive(Clone, Copy, Debug, Default, PartialEq, Eq)]
pub struct Content {
    pub clock: u32,
    pub scrambled: u16,
    pub disparity: i32,
    pub inverted: u32,
}

/// The answer of `ows_read_sample`.
#[repr(C)]
#[derive(Clone, Copy, Debug, Default, PartialEq, Eq)]
pub struct Sampled {
    pub refusal: u8,
    pub sample: u16,
}

/// The answer of `ows_write_strip` and `ows_write_short_strip`: refusal 0 and
/// the bytes written, or the refusal's number and 0.
#[repr(C)]
#[derive(Clone, Copy, Debug, Default, PartialEq, Eq)]
pub struct Written {
    pub refusal: u8,
    pub bytes: usize,
}

/// The answer of `ows_read_strip` and `ows_check_strip`: refusal 0 and what the
/// strip tells, or the refusal's number and zeros.
#[repr(C)]
#[derive(Clone, Copy, Debug, Default, PartialEq, Eq)]
pub struct Reading {
    pub refusal: u8,
    pub lane: u8,
    pub count: u16,
    pub form: u8,
    pub used: usize,
}

/// The answer of `ows_shorten_strip` and `ows_expand_strip`: refusal 0, the
/// bytes used and the bytes written, or the refusal's number and zeros.
#[repr(C)]
#[derive(Clone, Copy, Debug, Default, PartialEq, Eq)]
pub struct Converted {
    pub refusal: u8,
    pub used: usize,
    pub bytes: usize,
}

/// The calls on strips. The archive has them, and so has the natural version;
/// both are compared with the slow version through this trait.
pub trait Strips {
    /// What a report calls this version.
    const NAME: &'static str;

    fn write_strip(lane: u8, items: &[u16], buf: &mut [u8]) -> Written;
    fn write_short_strip(lane: u8, items: &[u16], buf: &mut [u8]) -> Written;
    fn read_strip(bytes: &[u8], slots: &mut [u16]) -> Reading;
    fn check_strip(bytes: &[u8]) -> Reading;
    fn shorten_strip(bytes: &[u8], buf: &mut [u8]) -> Converted;
    fn expand_strip(bytes: &[u8], buf: &mut [u8]) -> Converted;
}
