//! The lane's records and answers as the C interface has them. The slow
//! version, the natural version and the archive all speak through them.

/// The sender's record: "seed (permitted), state, next clock bit, R (−16 to
/// 16), position (0 to 64)", and by Q-7 the number of alignment frames, with
/// which the largest position moves.
#[repr(C)]
#[derive(Clone, Copy, Debug, Default, PartialEq, Eq)]
pub struct Sender {
    pub seed: u32,
    pub state: u32,
    pub clock: u32,
    pub r: i32,
    pub position: u32,
    pub alignment: u32,
}

/// The answer of `ows_start` and `ows_start_with`: refusal 0 and the sender, or
/// the refusal's number and zeros.
#[repr(C)]
#[derive(Clone, Copy, Debug, Default, PartialEq, Eq)]
pub struct Started {
    pub refusal: u8,
    pub sender: Sender,
}

/// How a sending call stopped.
pub const REFUSED: u8 = 0;
pub const ALL_SENT: u8 = 1;
pub const OUT_OF_SPACE: u8 = 2;

/// The answer of `ows_send`. A refusal has the record unaltered, else zeros.
#[repr(C)]
#[derive(Clone, Copy, Debug, PartialEq, Eq)]
pub struct Sent {
    pub refusal: u8,
    pub stop: u8,
    pub sender: Sender,
    pub taken: usize,
    pub written: usize,
}

/// The receiver's modes.
pub const HUNT: u32 = 0;
pub const FLASH: u32 = 1;
pub const FIRST: u32 = 2;
pub const PROVE: u32 = 3;
pub const LOCKED: u32 = 4;

/// The receiver's record, flat: a part that the mode has not is 0. The bits
/// held are the lowest `count` of `bits`, the earliest lowest.
#[repr(C)]
#[derive(Clone, Copy, Debug, Default, PartialEq, Eq)]
pub struct Receiver {
    pub mode: u32,
    pub bits: u32,
    pub count: u32,
    /// The frame that Flash holds.
    pub frame: u32,
    /// The data that First holds.
    pub word: u32,
    /// The frames read in Prove.
    pub read: u32,
    /// The results of Locked's last eight frames, the latest lowest: a 1 for a
    /// faulty one.
    pub results: u32,
    /// The state of Prove and Locked.
    pub state: u32,
    /// The last clock bit of First and Prove, and the one that Locked expects.
    pub clock: u32,
    pub samples: u64,
    pub gaps: u64,
    pub losses: u64,
    /// The ones minus the zeros of Locked's frames since the lock, and the
    /// lowest and the highest such sum at a frame's end. Any numbers are taken.
    pub sum: i32,
    pub lowest: i32,
    pub highest: i32,
}

impl Receiver {
    /// The sums: running, lowest and highest.
    pub fn sums(&self) -> [i32; 3] {
        [self.sum, self.lowest, self.highest]
    }

    /// The record with these sums.
    pub fn with_sums(self, [sum, lowest, highest]: [i32; 3]) -> Self {
        Receiver {
            sum,
            lowest,
            highest,
            ..self
        }
    }
}

/// A receiver in Flash, with no bits held, totals and sums 0, as all below.
pub fn flash(frame: u32) -> Receiver {
    Receiver {
        mode: FLASH,
        frame,
        ..Receiver::default()
    }
}

/// A receiver in First.
pub fn first(word: u32, clock: u32) -> Receiver {
    Receiver {
        mode: FIRST,
        word,
        clock,
        ..Receiver::default()
    }
}

/// A receiver in Prove.
pub fn prove(read: u32, state: u32, clock: u32) -> Receiver {
    Receiver {
        mode: PROVE,
        read,
        state,
        clock,
        ..Receiver::default()
    }
}

/// A receiver in Locked, with the clock bit that it expects.
pub fn locked(results: u32, state: u32, clock: u32) -> Receiver {
    Receiver {
        mode: LOCKED,
        results,
        state,
        clock,
        ..Receiver::default()
    }
}

/// The answer of a feeding call. A refusal has the record unaltered, else zeros.
#[repr(C)]
#[derive(Clone, Copy, Debug, PartialEq, Eq)]
pub struct Fed {
    pub refusal: u8,
    pub receiver: Receiver,
    pub bytes: usize,
    pub slots: usize,
}

/// The two feeding calls, which give the same for every record, bytes and slots.
#[derive(Clone, Copy, Debug, PartialEq, Eq)]
pub enum FeedCall {
    Feed,
    FeedFrames,
}

/// Both.
pub const FEED_CALLS: [FeedCall; 2] = [FeedCall::Feed, FeedCall::FeedFrames];

impl FeedCall {
    /// The function's name in the header.
    pub fn name(self) -> &'static str {
        match self {
            FeedCall::Feed => "ows_feed",
            FeedCall::FeedFrames => "ows_feed_frames",
        }
    }
}

/// The answer of `ows_receiver_sync`. A refusal has the record unaltered.
#[repr(C)]
#[derive(Clone, Copy, Debug, PartialEq, Eq)]
pub struct ReceiverSynced {
    pub refusal: u8,
    pub receiver: Receiver,
}

/// The lane's calls. The archive has them, and so has the natural version;
/// both are compared with the slow version through this trait.
pub trait Lane {
    /// What a report calls this version.
    const NAME: &'static str;

    fn start(seed: u32) -> Started;
    fn start_with(seed: u32, alignment: u32) -> Started;
    /// The refusal, 0 where taken.
    fn sync(sender: &mut Sender) -> u8;
    fn send(sender: Sender, samples: &[u16], buf: &mut [u8]) -> Sent;
    fn fresh() -> Receiver;
    fn receiver_sync(receiver: Receiver) -> ReceiverSynced;
    fn feed(receiver: Receiver, bytes: &[u8], slots: &mut [u16]) -> Fed;
    fn feed_frames(receiver: Receiver, bytes: &[u8], slots: &mut [u16]) -> Fed;

    /// The one feeding call or the other.
    #[track_caller]
    fn feed_by(call: FeedCall, receiver: Receiver, bytes: &[u8], slots: &mut [u16]) -> Fed {
        match call {
            FeedCall::Feed => Self::feed(receiver, bytes, slots),
            FeedCall::FeedFrames => Self::feed_frames(receiver, bytes, slots),
        }
    }
}
