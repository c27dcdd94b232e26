//! The lane's calls of one version, the archive's above all, each compared
//! with the slow version: the same refusal, the same values, the same record
//! and the same content of every buffer byte and slot. Each feeding call is made
//! by both calls that feed, which must give the same. Each call on an admitted
//! receiver is made on the crossed line as well and compared with the plain one.

use std::fmt::Debug;
use std::marker::PhantomData;
use std::sync::atomic::{AtomicU64, Ordering};

use crate::archive::fail;
use crate::counts::Counts;
use crate::crossed::{feed_crossed, sync_crossed};
use crate::lane_reports::{report_calls, report_feed, report_send};
use crate::random::Random;
use crate::records::{Fed, Lane, Receiver, Sender, Sent, Started, FEED_CALLS};
use crate::reference::calls as slow;

/// The calls and the frames sent of all parts of one run that have ended.
static ALL_CALLS: AtomicU64 = AtomicU64::new(0);
static ALL_FRAMES: AtomicU64 = AtomicU64::new(0);

/// One part of the comparison, with its counts.
pub struct LaneComparison<L> {
    /// For buffer contents, and for all that the part makes up.
    pub random: Random,
    /// Whether the slow version runs beside. Without it, a part checks what it
    /// demands by itself.
    pub slow: bool,
    counts: Counts,
    /// Tells which feeding call's record goes on.
    turns: Random,
    /// Frames sent, and bytes that the receiver used.
    pub frames: u64,
    pub bytes: u64,
    /// Feeding calls, each made by both calls.
    fed: u64,
    /// Calls made on the crossed line as well.
    crossed: u64,
    version: PhantomData<L>,
}

impl<L: Lane> LaneComparison<L> {
    /// A part before its first call.
    pub fn new(seed: u64) -> Self {
        LaneComparison {
            random: Random::new(seed),
            slow: true,
            counts: Counts::default(),
            turns: Random::new(!seed),
            frames: 0,
            bytes: 0,
            fed: 0,
            crossed: 0,
            version: PhantomData,
        }
    }

    /// Starts a sender.
    #[track_caller]
    pub fn start(&mut self, seed: u32) -> Started {
        let answer = L::start(seed);
        let call = || format!("start, seed {seed:#x}");
        demand::<L, _>(call, answer, slow::start(seed));
        self.counts.add(answer.refusal);
        answer
    }

    /// Starts a sender with that number of alignment frames.
    #[track_caller]
    pub fn start_with(&mut self, seed: u32, alignment: u32) -> Started {
        let answer = L::start_with(seed, alignment);
        let call = || format!("start, seed {seed:#x}, {alignment} alignment frames");
        demand::<L, _>(call, answer, slow::start_with(seed, alignment));
        self.counts.add(answer.refusal);
        answer
    }

    /// The sender's SYNC call; the refusal.
    #[track_caller]
    pub fn sync(&mut self, record: &mut Sender) -> u8 {
        let before = *record;
        let refusal = L::sync(record);
        let mut after = before;
        let expected = slow::sync(&mut after);
        let call = || format!("sync, {before:?}");
        demand::<L, _>(call, (refusal, *record), (expected, after));
        self.counts.add(refusal);
        refusal
    }

    /// Sends to a buffer of that many bytes of any content; beside the answer,
    /// the bytes written. The record becomes the one returned.
    #[track_caller]
    pub fn send(&mut self, record: &mut Sender, samples: &[u16], room: usize) -> (Sent, Vec<u8>) {
        let before = self.random.bytes(room);
        let mut buf = before.clone();
        let answer = L::send(*record, samples, &mut buf);
        if self.slow {
            let mut expected_buf = before.clone();
            let expected = slow::send(*record, samples, &mut expected_buf);
            if answer != expected || buf != expected_buf {
                fail(&report_send::<L>(*record, samples, &before));
            }
        }
        self.counts.add(answer.refusal);
        self.frames += answer.written as u64 / 2;
        if buf[answer.written..] != before[answer.written..] {
            fail(&format!("send, {record:?}: a later byte was written"));
        }
        *record = answer.sender;
        buf.truncate(answer.written);
        (answer, buf)
    }

    /// A fresh receiver.
    #[track_caller]
    pub fn fresh(&mut self) -> Receiver {
        let answer = L::fresh();
        demand::<L, _>(|| "fresh".to_string(), answer, slow::fresh());
        self.counts.add(0);
        answer
    }

    /// The receiver's SYNC call; the refusal. The record becomes the one
    /// returned.
    #[track_caller]
    pub fn receiver_sync(&mut self, record: &mut Receiver) -> u8 {
        let answer = L::receiver_sync(*record);
        let call = || format!("receiver's sync, {record:?}");
        demand::<L, _>(call, answer, slow::receiver_sync(*record));
        if answer.refusal == 0 {
            sync_crossed::<L>(*record, &answer);
            self.crossed += 1;
        }
        self.counts.add(answer.refusal);
        *record = answer.receiver;
        answer.refusal
    }

    /// Feeds bytes to that many slots of any content, by both feeding calls;
    /// beside the answer, the slots used. The record becomes the one that the
    /// one call or the other returned, by turns.
    #[track_caller]
    pub fn feed(&mut self, record: &mut Receiver, bytes: &[u8], room: usize) -> (Fed, Vec<u16>) {
        let before = self.random.slots(room);
        let given = FEED_CALLS.map(|call| {
            let mut slots = before.clone();
            (L::feed_by(call, *record, bytes, &mut slots), slots)
        });
        if self.slow {
            let mut slots = before.clone();
            let expected = (slow::feed(*record, bytes, &mut slots), slots);
            if let Some(place) = given.iter().position(|given| *given != expected) {
                let call = FEED_CALLS[place];
                fail(&report_feed::<L>(call, *record, bytes, &before));
            }
        }
        if given[0] != given[1] {
            fail(&report_calls::<L>(*record, bytes, &before));
        }
        let [first, second] = given;
        let (answer, mut slots) = if self.turns.one_in(2) { first } else { second };
        self.fed += 1;
        self.counts.add(answer.refusal);
        self.bytes += answer.bytes as u64;
        if slots[answer.slots..] != before[answer.slots..] {
            fail(&format!("feed, {record:?}: an unused slot was written"));
        }
        if answer.refusal == 0 {
            for call in FEED_CALLS {
                feed_crossed::<L>(call, *record, bytes, &before, (&answer, &slots));
            }
            self.crossed += 1;
        }
        *record = answer.receiver;
        slots.truncate(answer.slots);
        (answer, slots)
    }

    /// Ends the part: prints its counts, and demands at least that many frames
    /// sent and each of these answers at least 20 times.
    #[track_caller]
    pub fn end(self, part: &str, least: u64, answers: &[usize]) {
        let calls = self.counts.calls();
        let all = ALL_CALLS.fetch_add(calls, Ordering::SeqCst) + calls;
        let all_frames = ALL_FRAMES.fetch_add(self.frames, Ordering::SeqCst) + self.frames;
        let (met, frames, bytes) = (self.counts.text(), self.frames, self.bytes);
        let of_them = |times: u64, how: &str| match times {
            0 => String::new(),
            times => format!("{times} of them {how}, "),
        };
        let fed = of_them(self.fed, "by ows_feed and by ows_feed_frames");
        let crossed = of_them(self.crossed, "crossed as well");
        println!(
            "{part}: {calls} calls ({met}), {fed}{crossed}{frames} frames sent, {bytes} bytes fed; \
             {all} calls and {all_frames} frames in the parts ended so far"
        );
        if frames < least {
            fail(&format!("{part}: {frames} frames, under {least}"));
        }
        self.counts.demand(part, answers);
    }
}

/// Panics unless the version's answer is the slow version's.
#[track_caller]
fn demand<L: Lane, T: PartialEq + Debug>(call: impl Fn() -> String, answer: T, expected: T) {
    if answer != expected {
        let (call, name) = (call(), L::NAME);
        fail(&format!(
            "{call}\n  {name}: {answer:?}\n  slow version: {expected:?}"
        ));
    }
}
