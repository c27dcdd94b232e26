//! Mistakes that make a crossed line differ from the plain one, which document
//! 02's Q-2 shuts out.

use owsopel_tests::archive::{Calls, Feed};
use owsopel_tests::reference::frame::{invert, read};
use owsopel_tests::reference::receiver::{Mode, Receiver};

use super::receiver::{ended, feed_by, Rules};
use super::{mistake, Mistake, SLOW};

/// Takes 0xFF00 after 0x00FF as the first frame of data.
struct FlashFromEven;

impl Rules for FlashFromEven {
    fn read_bit(receiver: &mut Receiver, bit: bool) -> Option<u16> {
        let frame = ended(receiver, bit);
        if (receiver.mode, frame) != (Mode::Flash { frame: 0x00FF }, Some(0xFF00)) {
            return receiver.read_bit(bit);
        }
        let content = read(0xFF00);
        let (data, clock) = (content.scrambled, content.clock);
        receiver.mode = Mode::First { data, clock };
        receiver.held.clear();
        None
    }
}

/// Hunts on after 0x00FF, 0xFF00.
struct HuntInOneOrder;

impl Rules for HuntInOneOrder {
    fn read_bit(receiver: &mut Receiver, bit: bool) -> Option<u16> {
        let (was, mut held) = (receiver.mode, receiver.held.clone());
        let item = receiver.read_bit(bit);
        if was == Mode::Hunt && receiver.mode == (Mode::Flash { frame: 0xFF00 }) {
            held.push(bit);
            receiver.mode = Mode::Hunt;
            receiver.held = held.split_off(held.len() - 32);
        }
        item
    }
}

/// Judges the clock bit that came on the line.
struct ClockBitOfFirst;

impl Rules for ClockBitOfFirst {
    fn read_bit(receiver: &mut Receiver, bit: bool) -> Option<u16> {
        let is_first = matches!(receiver.mode, Mode::First { .. });
        if is_first && ended(receiver, bit).is_some() && bit {
            receiver.held[14] = !receiver.held[14];
        }
        receiver.read_bit(bit)
    }
}

/// Goes back to Hunt for data after 0xFF00. A sender's last alignment frame is
/// 0x00FF, so that an undamaged line shows this only where it is crossed.
struct DataAfterOdd;

impl Rules for DataAfterOdd {
    fn read_bit(receiver: &mut Receiver, bit: bool) -> Option<u16> {
        let is_even = receiver.mode == Mode::Flash { frame: 0xFF00 };
        let frame = ended(receiver, bit);
        let item = receiver.read_bit(bit);
        if is_even && frame.is_some_and(|frame| frame != invert(0xFF00)) {
            receiver.mode = Mode::Hunt;
        }
        item
    }
}

fn in_feed(name: &'static str, ows_feed: Feed, told: &'static str) -> Mistake {
    mistake(Calls { ows_feed, ..SLOW }, name, 2, told)
}

pub fn crossed_mistakes() -> Vec<Mistake> {
    vec![
        in_feed(
            "Flash that knows its start 0xFF00 alone",
            feed_by::<FlashFromEven>,
            "frame: 255",
        ),
        in_feed(
            "Hunt that takes the pattern in one order",
            feed_by::<HuntInOneOrder>,
            "on the crossed line: Fed { refusal: 0, receiver: Receiver { mode: 0",
        ),
        in_feed(
            "First that judges the clock bit before the inversion",
            feed_by::<ClockBitOfFirst>,
            "on the crossed line: Fed { refusal: 0, receiver: Receiver { mode: 3",
        ),
        in_feed(
            "Flash that takes data after 0x00FF alone",
            feed_by::<DataAfterOdd>,
            "frame: 65280",
        ),
    ]
}
