//! Runs of sound frames at every bit of a frame, in one call and cut, through
//! both feeding calls of the archive and against the slow version. What a run
//! must give is counted by itself too.

use owsopel_tests::archive::{Archive, Direct};
use owsopel_tests::awaited::{frame_bits, split};
use owsopel_tests::lane_comparison::LaneComparison;
use owsopel_tests::lane_records::{self, all_results, sequence_bytes, ALIGNMENTS};
use owsopel_tests::lines::Line;
use owsopel_tests::random::Random;
use owsopel_tests::records::{Lane, Receiver, HUNT, LOCKED};
use owsopel_tests::reference::frame::{next, word};
use owsopel_tests::reference::strip::GAP;
use owsopel_tests::sum_trials::sums_after;
use owsopel_tests::trials::sent_line;

type Comparison = LaneComparison<Archive>;

// ---- Every bit of a frame ----

/// The samples after the first sequence, and the frames of them whose clock bits
/// are flipped. The last four lose lock with the last frame, so that the second
/// sequence is found from its first bit on.
const SAMPLES: usize = 24;
const FAULTY: [usize; 7] = [3, 9, 10, 20, 21, 22, 23];

/// Noise of so many bits, a sequence with samples and faulty frames, another
/// with samples; beside the line, the items.
fn sent_with_faults(
    comparison: &mut Comparison,
    alignment: u32,
    noise: usize,
) -> (Vec<u8>, Vec<u16>) {
    let (mut first, mut items, _) = sent_line(comparison, alignment, SAMPLES);
    for frame in FAULTY {
        first[sequence_bytes(alignment) + 2 * frame + 1] ^= 0x40;
        items[frame] = GAP;
    }
    let (second, samples, _) = sent_line(comparison, alignment, 12);
    items.extend(samples);
    let mut line = Line::default();
    line.noise(noise, &mut comparison.random);
    line.bytes(&first);
    line.bytes(&second);
    (line.end(&mut comparison.random).0, items)
}

/// From a fresh receiver, in one call and in two, cut at every byte: the samples
/// sent and a gap for each faulty frame.
#[test]
fn a_line_at_every_bit_cut_at_every_byte() {
    let mut comparison = Comparison::new(1201);
    for noise in 0..16 {
        let alignment = ALIGNMENTS[noise % 11];
        let (line, expected) = sent_with_faults(&mut comparison, alignment, noise);
        for cut in 0..=line.len() {
            let mut receiver = comparison.fresh();
            let mut items = Vec::new();
            for piece in [&line[..cut], &line[cut..]] {
                let (fed, slots) = comparison.feed(&mut receiver, piece, piece.len());
                assert_eq!(fed.bytes, piece.len());
                items.extend(slots);
            }
            assert_eq!(items, expected, "{noise} bits of noise, cut at {cut}");
            let totals = [receiver.samples, receiver.gaps, receiver.losses];
            assert_eq!((receiver.mode, totals), (LOCKED, [29, 7, 1]));
        }
    }
    comparison.end("a line at every bit", 0, &[0]);
}

// ---- Runs ----

/// The balance of a run's frames: any, as many ones as can be, or as many zeros.
#[derive(Clone, Copy)]
enum Balance {
    Any,
    Ones,
    Zeros,
}

/// Data of that balance in a frame, inverted or not.
fn data(balance: Balance, is_inverted: bool, random: &mut Random) -> u16 {
    match (balance, is_inverted) {
        (Balance::Any, _) => random.below(16384) as u16,
        (Balance::Ones, false) | (Balance::Zeros, true) => 0x3FFF,
        (Balance::Ones, true) | (Balance::Zeros, false) => 0,
    }
}

/// Frames to a record in Locked: so many sound ones, and a faulty one after them
/// if `faulty` is 1.
struct Run {
    /// The record, which holds the first bits.
    start: Receiver,
    line: Vec<u8>,
    frames: Vec<u16>,
    items: Vec<u16>,
}

impl Run {
    fn new(
        record: Receiver,
        length: usize,
        faulty: usize,
        balance: Balance,
        random: &mut Random,
    ) -> Run {
        let (mut frames, mut items) = (Vec::new(), Vec::new());
        let Receiver {
            mut state,
            mut clock,
            ..
        } = record;
        // The last frame is cut off, but for the bits up to a whole byte.
        for index in 0..=length + faulty {
            let is_sound = index < length;
            let is_inverted = random.one_in(2);
            let data = data(balance, is_inverted, random);
            let upright = data + 0x4000 * (clock ^ u32::from(!is_sound)) as u16;
            frames.push(if is_inverted { !upright } else { upright });
            items.push(if is_sound { data ^ word(state) } else { GAP });
            (state, clock) = (next(state).unwrap(), 1 - clock);
        }
        let bits = frame_bits(&frames);
        frames.pop();
        items.pop();
        let held = record.count as usize;
        let fed = (16 * frames.len()).saturating_sub(held);
        let end = held + fed.next_multiple_of(8);
        let (start, line) = split(record, &bits[..end], random);
        Run {
            start,
            line,
            frames,
            items,
        }
    }

    /// The record must be the one after all frames, of which so many are faulty.
    #[track_caller]
    fn demand(&self, after: &Receiver, faulty: usize) {
        let Receiver {
            results,
            mut state,
            clock,
            ..
        } = self.start;
        let length = self.frames.len();
        for _ in 0..length {
            state = next(state).unwrap();
        }
        let results = ((results << length) + faulty as u32) % 256;
        let bytes: Vec<u8> = self.frames.iter().flat_map(|f| f.to_le_bytes()).collect();
        let mut expected = Receiver {
            bits: after.bits,
            count: (self.start.count as usize + 8 * self.line.len() - 16 * length) as u32,
            results,
            state,
            clock: (clock + length as u32) % 2,
            samples: self.start.samples.saturating_add((length - faulty) as u64),
            gaps: self.start.gaps.saturating_add(faulty as u64),
            ..self.start.with_sums(sums_after(self.start.sums(), &bytes))
        };
        if results.count_ones() == 4 {
            (expected.mode, expected.results) = (HUNT, 0);
            (expected.state, expected.clock) = (0, 0);
            expected.losses = expected.losses.saturating_add(1);
        }
        assert_eq!(*after, expected, "{:?}", self.start);
    }
}

/// A running sum up to this, of either sign, is far enough from the limits for
/// the archive's loop of sound frames; frames with larger ones go byte by byte.
const SMALL: i32 = 1 << 30;

/// A record in Locked with so many bits held, its total of samples at or near
/// the largest, its running sum so near a limit that the run gets there, or at
/// or near the largest small one.
fn near_the_limits(count: u32, balance: Balance, random: &mut Random) -> Receiver {
    let near = random.below(23 * 16) as i32;
    let record = lane_records::receiver(LOCKED, random);
    Receiver {
        bits: 0,
        count,
        samples: u64::MAX - random.below(24) as u64,
        sum: match balance {
            Balance::Any => random.pick(&[
                record.sum,
                SMALL,
                SMALL + 1,
                SMALL - near,
                -SMALL,
                -SMALL - 1,
                near - SMALL,
            ]),
            Balance::Ones => i32::MAX - near,
            Balance::Zeros => i32::MIN + near,
        },
        ..record
    }
}

/// Up to 20 sound frames in one call, with up to 22 slots. In many runs the total
/// of samples gets to its largest value, and a sum to a limit.
#[test]
fn runs_with_every_number_of_slots() {
    let mut comparison = Comparison::new(1202);
    let (mut full, mut at_limit) = (0, 0);
    for (count, length) in (0..16).flat_map(|count| (0..=20).map(move |n| (count, n))) {
        for room in 0..=22 {
            for balance in [Balance::Any, Balance::Ones, Balance::Zeros].repeat(2) {
                let random = &mut comparison.random;
                let record = near_the_limits(count, balance, random);
                let run = Run::new(record, length, 0, balance, random);
                let mut receiver = run.start;
                let (_, slots) = comparison.feed(&mut receiver, &run.line, room);
                assert_eq!(slots, run.items[..room.min(length)]);
                if room > length {
                    run.demand(&receiver, 0);
                }
                let (before, after) = (run.start, receiver);
                let limits = [i32::MIN, i32::MAX];
                full += u64::from(before.samples < after.samples && after.samples == u64::MAX);
                at_limit += u64::from(before.sum != after.sum && limits.contains(&after.sum));
            }
        }
    }
    println!("runs: {full} times to the largest total, {at_limit} times to a limit");
    assert!(full > 1_000 && at_limit > 1_000);
    comparison.end("runs with every number of slots", 0, &[0]);
}

/// Each admitted number as results, up to nine sound frames, and then none or a
/// faulty one, which loses lock where it is the fourth of eight.
#[test]
fn runs_after_every_results() {
    let mut comparison = Comparison::new(1203);
    let mut losses = 0;
    for (results, count) in all_results()
        .into_iter()
        .flat_map(|r| (0..16).map(move |c| (r, c)))
    {
        for (length, faulty) in (0..=9).flat_map(|length| [(length, 0), (length, 1)]) {
            let random = &mut comparison.random;
            let record = Receiver {
                bits: 0,
                count,
                results,
                ..lane_records::receiver(LOCKED, random)
            };
            let run = Run::new(record, length, faulty, Balance::Any, random);
            let mut receiver = run.start;
            let (_, slots) = comparison.feed(&mut receiver, &run.line, length + 2);
            assert_eq!(slots, run.items);
            run.demand(&receiver, faulty);
            losses += u64::from(receiver.mode == HUNT);
        }
    }
    println!("runs after every results: {losses} times lock lost");
    assert!(losses > 1_000);
    comparison.end("runs after every results", 0, &[0]);
}

/// More frames in one call than the archive's loop takes at a time, 33 554 432.
/// States and clock bits come again after two periods of the scrambler, so that
/// the line does too.
#[test]
fn a_run_longer_than_the_longest() {
    const FRAMES: usize = 2 * 131_071;
    const OVER: usize = 129;
    let mut random = Random::new(1204);
    let samples: Vec<u16> = (0..FRAMES).map(|_| random.below(16384) as u16).collect();
    let (mut sequence, mut line) = (vec![0; 128], vec![0; 2 * FRAMES]);
    let sender = Direct::send(Direct::start(1).sender, &[], &mut sequence).sender;
    Direct::send(sender, &samples, &mut line);
    let line = line.repeat(OVER);
    let start = Direct::feed(Direct::fresh(), &sequence, &mut [0]).receiver;
    let [mut slots, mut bit_by_bit] = [vec![0; FRAMES * OVER], vec![0; FRAMES * OVER]];
    let fed = Direct::feed_frames(start, &line, &mut slots);
    assert_eq!(fed, Direct::feed(start, &line, &mut bit_by_bit));
    assert_eq!((fed.bytes, fed.slots), (line.len(), slots.len()));
    assert!(slots.len() > 33_554_432 && slots == bit_by_bit);
    assert!(slots.chunks_exact(FRAMES).all(|items| items == samples));
    assert_eq!(fed.receiver.samples, slots.len() as u64);
}
