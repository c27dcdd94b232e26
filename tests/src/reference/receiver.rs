//! Document 01, section Receiver, with Locked as document 02's Q-3 has it and
//! the sums of Q-5, on lists of bits, the earliest bit first.
//!
//! A refusal is `Err` with its number and leaves the record and the slots; the
//! zeros that document 01 gives for the other values of a refused call are not
//! repeated here.

use super::frame::{bits, invert, next, number, read, read_sample, toggled, word};
use super::receiver_record::{from_record, to_record};
use super::strip::GAP;
use super::sums::Sums;
use crate::answers::Content;
use crate::records;

/// "those eight results in place of the fault count": whether each of the last
/// eight frames was faulty, the latest first. None before locking was.
pub type Results = [bool; 8];

/// A mode with its numbers. The bits held are beside it, in `Receiver`. The
/// clock bit is that of the last frame, in Locked that expected of the next.
#[derive(Clone, Copy, Debug, PartialEq, Eq)]
pub enum Mode {
    Hunt,
    Flash {
        frame: u16,
    },
    First {
        data: u16,
        clock: u32,
    },
    Prove {
        read: u32,
        state: u32,
        clock: u32,
    },
    Locked {
        results: Results,
        state: u32,
        clock: u32,
    },
}

/// "The record holds a mode, whose data differ, and three 64-bit totals
/// (samples, gaps, losses)". `held` are Hunt's "up to 32 latest bits", or the
/// bits of the frame that another mode collects.
#[derive(Clone, Debug, PartialEq, Eq)]
pub struct Receiver {
    pub mode: Mode,
    pub held: Vec<bool>,
    pub samples: u64,
    pub gaps: u64,
    pub losses: u64,
    pub sums: Sums,
}

// ---- The modes ----

/// The bits of 0xFF00 and of 0x00FF. "Bit 0 goes first on the line."
const EVEN_BITS: [bool; 16] = halves(false, true);
const ODD_BITS: [bool; 16] = halves(true, false);

/// Eight bits and eight bits.
const fn halves(earlier: bool, later: bool) -> [bool; 16] {
    let mut list = [earlier; 16];
    let mut k = 8;
    while k < 16 {
        list[k] = later;
        k += 1;
    }
    list
}

/// "When the 32 are two frames 0xFF00, 0x00FF in either order": the later.
fn later_of_pattern(held: &[bool]) -> Option<u16> {
    if held.len() < 32 {
        return None;
    }
    let (earlier, later) = held.split_at(16);
    if earlier == EVEN_BITS && later == ODD_BITS {
        return Some(0x00FF);
    }
    if earlier == ODD_BITS && later == EVEN_BITS {
        return Some(0xFF00);
    }
    None
}

/// "**First**: with data p held and q now, s = p + 16384 × (q mod 8). Go to
/// Prove if the clock bit differs from the held one, s is not 0 and q is the
/// word of next(s). Prove starts with 2 frames read and the state two steps
/// after s. Otherwise Hunt."
fn after_first(p: u16, held_clock: u32, q: u16, clock: u32) -> Mode {
    let s = u32::from(p) + 16384 * (u32::from(q) % 8);
    if clock == held_clock || s == 0 {
        return Mode::Hunt;
    }
    let after = step(s);
    if q != word(after) {
        return Mode::Hunt;
    }
    Mode::Prove {
        read: 2,
        state: step(after),
        clock,
    }
}

/// "**Prove** (2 to 31 read): data must be the state's word and the clock bit
/// must differ from the last. Step; after the 32nd frame, Locked [...].
/// Otherwise Hunt." Locked's "expected clock bit" is "set when Prove ends".
fn after_prove(frames: u32, state: u32, last: u32, data: u16, clock: u32) -> Mode {
    if data != word(state) || clock == last {
        return Mode::Hunt;
    }
    let (read, state) = (frames + 1, step(state));
    if read < 32 {
        return Mode::Prove { read, state, clock };
    }
    Mode::Locked {
        results: [false; 8],
        state,
        clock: toggled(clock),
    }
}

/// "four of the last eight frames", "four or more of them faulty".
pub fn four_are_faulty(results: Results) -> bool {
    let mut faulty = 0;
    for is_faulty in results {
        if is_faulty {
            faulty += 1;
        }
    }
    faulty >= 4
}

/// The scrambler's next state of a state in range.
fn step(state: u32) -> u32 {
    next(state).expect("the state is in range")
}

/// "totals [...] that stay at their largest value once there".
fn count(total: &mut u64) {
    *total = match *total {
        u64::MAX => u64::MAX,
        below => below + 1,
    };
}

/// "Fresh: Hunt, totals 0." The sums "are 0 when fresh".
pub fn fresh() -> Receiver {
    Receiver {
        mode: Mode::Hunt,
        held: Vec::new(),
        samples: 0,
        gaps: 0,
        losses: 0,
        sums: Sums::default(),
    }
}

impl Receiver {
    /// "A SYNC call enters Hunt and leaves the totals." and "Each entry to Hunt
    /// starts with no bits." The sums "rest outside Locked".
    pub fn sync(&mut self) {
        self.mode = Mode::Hunt;
        self.held.clear();
    }

    /// "It reads bit by bit." The item, if the bit hands one out.
    pub fn read_bit(&mut self, bit: bool) -> Option<u16> {
        self.held.push(bit);
        if self.mode == Mode::Hunt {
            if self.held.len() > 32 {
                self.held.remove(0);
            }
            if let Some(frame) = later_of_pattern(&self.held) {
                self.mode = Mode::Flash { frame };
                self.held.clear();
            }
            return None;
        }
        if self.held.len() < 16 {
            return None;
        }
        let frame = number(&self.held) as u16;
        self.held.clear();
        self.judge(frame)
    }

    /// "All other modes collect 16 bits (0 to 15 held) and then judge the
    /// frame. **Flash**: if it is the held frame inverted, hold it instead.
    /// Otherwise read it and go to First with its data and clock bit." The sums
    /// "become 0 at each lock".
    fn judge(&mut self, frame: u16) -> Option<u16> {
        let content = read(frame);
        let (clock, data) = (content.clock, content.scrambled);
        self.mode = match self.mode {
            Mode::Hunt => unreachable!("Hunt judges no frame"),
            Mode::Flash { frame: held } if frame == invert(held) => Mode::Flash { frame },
            Mode::Flash { .. } => Mode::First { data, clock },
            Mode::First { data: p, clock: c } => after_first(p, c, data, clock),
            Mode::Prove {
                read,
                state,
                clock: last,
            } => after_prove(read, state, last, data, clock),
            Mode::Locked {
                results,
                state,
                clock: expected,
            } => return Some(self.locked(results, state, expected, frame)),
        };
        if let Mode::Locked { .. } = self.mode {
            self.sums = Sums::default();
        }
        None
    }

    /// Document 02: "Locked keeps an expected clock bit that toggles every
    /// frame, set when Prove ends. A frame is faulty if its bit differs from
    /// the expected one. Lock is lost when four of the last eight frames since
    /// locking were faulty." Document 01, of a fault: "the item is a gap";
    /// "otherwise the item is data xor word"; "The state steps [...] either
    /// way"; the fault that loses lock "hands out its gap, adds a loss and goes
    /// to Hunt". "The frame that loses lock still counts in" the sums.
    fn locked(&mut self, earlier: Results, state: u32, expected: u32, frame: u16) -> u16 {
        let Content {
            clock, disparity, ..
        } = read(frame);
        self.sums.add(disparity);
        let is_faulty = clock != expected;
        let mut results = [is_faulty; 8];
        results[1..].copy_from_slice(&earlier[..7]);
        self.mode = Mode::Locked {
            results,
            state: step(state),
            clock: toggled(expected),
        };
        if four_are_faulty(results) {
            count(&mut self.losses);
            self.mode = Mode::Hunt;
        }
        if is_faulty {
            count(&mut self.gaps);
            return GAP;
        }
        count(&mut self.samples);
        read_sample(frame, state).expect("the state is in range")
    }
}

// ---- The calls ----

/// The SYNC call on a flat record. Refused 3 for the record.
pub fn sync(record: &mut records::Receiver) -> Result<(), u8> {
    let mut receiver = from_record(record)?;
    receiver.sync();
    *record = to_record(&receiver);
    Ok(())
}

/// "reports bytes and slots used".
#[derive(Clone, Copy, Debug, PartialEq, Eq)]
pub struct Feeding {
    pub bytes: usize,
    pub slots: usize,
}

/// "Feeding takes bytes and item slots; it stops before a byte when no slot is
/// free, and reports bytes and slots used. Unused slots keep their content."
/// Refused 3 for the record.
pub fn feed(
    record: &mut records::Receiver,
    bytes: &[u8],
    slots: &mut [u16],
) -> Result<Feeding, u8> {
    let mut receiver = from_record(record)?;
    let mut used = Feeding { bytes: 0, slots: 0 };
    while used.bytes < bytes.len() && used.slots < slots.len() {
        for bit in bits::<8>(u32::from(bytes[used.bytes])) {
            if let Some(item) = receiver.read_bit(bit) {
                slots[used.slots] = item;
                used.slots += 1;
            }
        }
        used.bytes += 1;
    }
    *record = to_record(&receiver);
    Ok(used)
}
