//! Jobs run in turn, and their times.

use std::time::Duration;

/// As C has it on 64-bit Linux.
#[repr(C)]
struct Timespec {
    seconds: i64,
    nanoseconds: i64,
}

const CLOCK_THREAD_CPUTIME_ID: i32 = 3;

extern "C" {
    fn clock_gettime(clock: i32, time: *mut Timespec) -> i32;
}

/// The processor time that this thread has used.
fn processor_time() -> Duration {
    let mut time = Timespec {
        seconds: 0,
        nanoseconds: 0,
    };
    // SAFETY: the call writes the struct lent to it.
    let failed = unsafe { clock_gettime(CLOCK_THREAD_CPUTIME_ID, &mut time) };
    assert_eq!(failed, 0, "no clock of the thread's processor time");
    Duration::new(time.seconds as u64, time.nanoseconds as u32)
}

/// What is timed: the units (bits or items) it goes through, and how it is run.
pub struct Job<'a> {
    pub units: usize,
    pub run: Box<dyn FnMut() + 'a>,
}

impl<'a> Job<'a> {
    pub fn new(units: usize, run: impl FnMut() + 'a) -> Self {
        let run = Box::new(run);
        Job { units, run }
    }
}

/// Runs the jobs in turn so many times; the times of each in ns per unit, by
/// rounds.
fn times<const N: usize>(rounds: usize, mut jobs: [Job; N]) -> [Vec<f64>; N] {
    let mut lists = [const { Vec::new() }; N];
    for _ in 0..rounds {
        for (job, list) in jobs.iter_mut().zip(&mut lists) {
            let start = processor_time();
            (job.run)();
            let time = processor_time() - start;
            list.push(time.as_nanos() as f64 / job.units as f64);
        }
    }
    lists
}

fn median(mut list: Vec<f64>) -> f64 {
    list.sort_by(f64::total_cmp);
    list[list.len() / 2]
}

/// The median time of each job.
pub fn medians<const N: usize>(rounds: usize, jobs: [Job; N]) -> [f64; N] {
    times(rounds, jobs).map(median)
}

/// The least time of each job: the cost itself, without what other programs
/// add to it.
pub fn least<const N: usize>(rounds: usize, jobs: [Job; N]) -> [f64; N] {
    times(rounds, jobs).map(|list| list.into_iter().fold(f64::INFINITY, f64::min))
}

/// Medians of the times, and of each job's time over the first job's in the
/// same round: what else runs in a round disturbs both alike.
pub struct Compared<const N: usize> {
    pub times: [f64; N],
    pub over_first: [f64; N],
}

pub fn compared<const N: usize>(rounds: usize, jobs: [Job; N]) -> Compared<N> {
    let lists = times(rounds, jobs);
    let over_first = lists.each_ref().map(|list| {
        let pairs = list.iter().zip(&lists[0]);
        median(pairs.map(|(time, first)| time / first).collect())
    });
    Compared {
        times: lists.map(median),
        over_first,
    }
}
