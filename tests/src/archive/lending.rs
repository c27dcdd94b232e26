//! Copies between guard elements, and reports of a failure.

use std::fmt::{Debug, LowerHex};
use std::io::{stderr, Write};
use std::ptr::NonNull;

/// Guard elements on each side of a lent buffer.
const GUARDS: usize = 16;

/// What a lent buffer is made of.
pub trait Element: Copy + PartialEq + LowerHex {
    /// The guard element of that place: 0 to 15 before, 16 to 31 after. No two
    /// are equal, so that moved guards are noticed as well.
    fn guard(place: usize) -> Self;
}

impl Element for u8 {
    fn guard(place: usize) -> u8 {
        (0xA5 + 0x1D * place) as u8
    }
}

impl Element for u16 {
    fn guard(place: usize) -> u16 {
        (0xA5C3 + 0x1357 * place) as u16
    }
}

impl Element for u32 {
    fn guard(place: usize) -> u32 {
        (0xA5C3_9617 + 0x1357_9BDF * place) as u32
    }
}

/// A copy of a buffer between guard elements.
pub struct Lent<T>(Vec<T>);

impl<T: Element> Lent<T> {
    pub fn new(content: &[T]) -> Self {
        let mut all = Vec::with_capacity(content.len() + 2 * GUARDS);
        all.extend((0..GUARDS).map(T::guard));
        all.extend_from_slice(content);
        all.extend((GUARDS..2 * GUARDS).map(T::guard));
        Lent(all)
    }

    pub fn content(&self) -> &[T] {
        &self.0[GUARDS..self.0.len() - GUARDS]
    }

    /// Where the content starts. For an empty one it is an address that may
    /// not be touched, so that touching it stops the run.
    pub fn pointer(&mut self) -> *mut T {
        if self.content().is_empty() {
            return NonNull::dangling().as_ptr();
        }
        self.0.as_mut_ptr().wrapping_add(GUARDS)
    }

    /// Tells a guard that has changed.
    pub fn check_guards(&self, name: &str) -> Result<(), String> {
        let (before, rest) = self.0.split_at(GUARDS);
        let after = &rest[rest.len() - GUARDS..];
        for (place, guard) in before.iter().chain(after).enumerate() {
            if *guard != T::guard(place) {
                let (distance, side) = match place.checked_sub(GUARDS) {
                    None => (GUARDS - place, "before"),
                    Some(past) => (past + 1, "after"),
                };
                return Err(format!("guard {distance} {side} {name} became {guard:#x}"));
            }
        }
        Ok(())
    }

    /// Tells a guard or an element that has changed.
    fn check_all(&self, content: &[T], name: &str) -> Result<(), String> {
        self.check_guards(name)?;
        if self.content() != content {
            return Err(format!("{name} became {}", short(self.content())));
        }
        Ok(())
    }
}

/// Lends a list for reading and a list for writing to a call, each by its
/// pointer and length, with the names they have in a report. `Err` tells what
/// was altered that must not be.
pub fn lend<R: Element, W: Element, A: Debug>(
    (read_name, read): (&str, &[R]),
    (write_name, write): (&str, &mut [W]),
    call: impl FnOnce(*const R, usize, *mut W, usize) -> A,
) -> Result<A, String> {
    let (mut lent_read, mut lent_write) = (Lent::new(read), Lent::new(write));
    let answer = call(
        lent_read.pointer(),
        read.len(),
        lent_write.pointer(),
        write.len(),
    );
    lent_read
        .check_all(read, read_name)
        .and_then(|()| lent_write.check_guards(write_name))
        .map_err(|altered| format!("{altered}; the call gave {answer:?}"))?;
    write.copy_from_slice(lent_write.content());
    Ok(answer)
}

/// Panics. The message also goes straight to the error stream: an archive
/// built to abort on a panic can end the run before a test's output is shown.
#[track_caller]
pub fn fail(message: &str) -> ! {
    // A lost copy is no matter, the panic has the message too.
    let _ = writeln!(stderr(), "{message}");
    panic!("{message}");
}

/// A list in base sixteen; of a long one, the first 48 and the last 8.
pub fn short<T: LowerHex>(list: &[T]) -> String {
    let shown = |part: &[T]| -> String {
        let words: Vec<String> = part.iter().map(|element| format!("{element:x}")).collect();
        words.join(" ")
    };
    let length = list.len();
    if length <= 64 {
        return format!("{length} [{}]", shown(list));
    }
    let (start, end) = (shown(&list[..48]), shown(&list[length - 8..]));
    format!("{length} [{start} .. {end}]")
}
