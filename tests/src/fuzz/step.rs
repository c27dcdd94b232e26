//! One call run by a version and by the slow version, and what both answered.

use std::fmt::{self, Debug, Display, LowerHex};

use crate::archive::short;

/// A buffer to be lent for writing: its length, and where its content before
/// the call starts. Each element differs from its neighbours.
#[derive(Clone, Copy, Debug, PartialEq, Eq)]
pub struct Room {
    pub size: usize,
    pub fill: u16,
}

impl Room {
    pub fn bytes(&self) -> Vec<u8> {
        self.slots().iter().map(|slot| (slot >> 8) as u8).collect()
    }

    pub fn slots(&self) -> Vec<u16> {
        let content = |k: usize| self.fill.wrapping_add((k as u16).wrapping_mul(0x9E37));
        (0..self.size).map(content).collect()
    }
}

impl Display for Room {
    fn fmt(&self, to: &mut fmt::Formatter) -> fmt::Result {
        write!(to, "room for {} (fill {:#x})", self.size, self.fill)
    }
}

/// What a call came to.
pub struct Step {
    /// The slow version's refusal, 0 where taken.
    pub refusal: u8,
    pub same: bool,
    /// The version's answer and the slow version's, if they differ or if they
    /// are to be told.
    pub answers: [String; 2],
    /// The call on the crossed line, if it was made and differs there.
    pub crossed: Option<Crossed>,
}

/// A call on the crossed line that differs from the one on the plain line: its
/// record and bytes, the version's answer, and the one that was demanded.
pub struct Crossed {
    pub call: String,
    pub answers: [String; 2],
}

impl Step {
    /// The step, with the call's step on the crossed line.
    pub fn with_crossed(self, crossed: Step, call: impl FnOnce() -> String) -> Self {
        if crossed.same {
            return self;
        }
        let (call, answers) = (call(), crossed.answers);
        Step {
            same: false,
            crossed: Some(Crossed { call, answers }),
            ..self
        }
    }

    /// A call that lends no buffer.
    pub fn numbers<A: Debug + PartialEq>(told: bool, refusal: u8, answer: A, expected: A) -> Self {
        Step::buffer(
            told,
            refusal,
            Ok((answer, [0_u8; 0])),
            (expected, [0_u8; 0]),
        )
    }

    /// A call that lends a buffer, here as it is after the call. `Err` tells
    /// what the version altered that must not be.
    pub fn buffer<A: Debug + PartialEq, L: AsRef<[E]> + PartialEq, E: LowerHex>(
        told: bool,
        refusal: u8,
        answer: Result<(A, L), String>,
        expected: (A, L),
    ) -> Self {
        let same = answer.as_ref() == Ok(&expected);
        let answers = if told || !same {
            let version = answer.map_or_else(|altered| altered, |answer| text(&answer));
            [version, text(&expected)]
        } else {
            [const { String::new() }; 2]
        };
        Step {
            refusal,
            same,
            answers,
            crossed: None,
        }
    }
}

/// An answer, and the buffer if there is one.
fn text<A: Debug, L: AsRef<[E]>, E: LowerHex>((answer, buffer): &(A, L)) -> String {
    let buffer = buffer.as_ref();
    if buffer.is_empty() {
        return format!("{answer:?}");
    }
    format!("{answer:?}, then in the buffer {}", short(buffer))
}
