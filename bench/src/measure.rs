//! Nanoseconds of a call: the median and spread of many batches.

use std::fmt;
use std::time::{Duration, Instant};

/// A batch lasts at least so long.
const BATCH: Duration = Duration::from_micros(25);
/// Warm-up before anything counts.
const WARM: Duration = Duration::from_millis(8);

/// Slow calls get fewer batches: no more are begun after this time, but for the fewest.
const BUDGET: Duration = Duration::from_millis(300);
const FEWEST: usize = 15;
/// Quick calls beside a slow one get up to so many batches in each turn.
const A_TURN: u32 = 8;

/// Nanoseconds of one call.
#[derive(Clone, Copy, Debug)]
pub struct Times {
    pub median: f64,
    /// The 10th and the 90th percentile.
    pub low: f64,
    pub high: f64,
}

impl Times {
    /// The percentiles of samples.
    fn of(mut samples: Vec<f64>) -> Times {
        samples.sort_by(f64::total_cmp);
        let at = |percent: usize| samples[(samples.len() - 1) * percent / 100];
        Times { median: at(50), low: at(10), high: at(90) }
    }
}

/// The median, and in brackets the 10th and the 90th percentile.
impl fmt::Display for Times {
    fn fmt(&self, out: &mut fmt::Formatter) -> fmt::Result {
        write!(out, "{:.0} ({:.0}–{:.0})", self.median, self.low, self.high)
    }
}

/// A call to be timed, which is told how often to repeat itself: only its start goes through the box.
pub type Call<'a> = Box<dyn FnMut(u32) + 'a>;

/// A call that repeats this.
pub fn repeated<'a>(mut call: impl FnMut() + 'a) -> Call<'a> {
    Box::new(move |times| (0..times).for_each(|_| call()))
}

/// At most so many batches of each call, taken in turns, so that what disturbs the machine disturbs all.
pub fn times(calls: &mut [Call], samples: usize) -> Vec<Times> {
    let sizes: Vec<u32> = calls.iter_mut().map(batch_size).collect();
    let turns = turns(calls, &sizes);
    let mut all = vec![Vec::with_capacity(samples); calls.len()];
    let start = Instant::now();
    for turn in 0.. {
        if turn >= FEWEST && start.elapsed() > BUDGET || all.iter().all(|found| found.len() >= samples) {
            break;
        }
        for (((call, &size), &turns), found) in calls.iter_mut().zip(&sizes).zip(&turns).zip(&mut all) {
            for _ in 0..turns {
                found.push(batch(call, size).as_nanos() as f64 / f64::from(size));
            }
        }
    }
    all.into_iter().map(Times::of).collect()
}

/// How many batches of each call make a turn: the slowest one's batch may be much longer than the others'.
fn turns(calls: &mut [Call], sizes: &[u32]) -> Vec<u32> {
    let lengths: Vec<Duration> = calls.iter_mut().zip(sizes).map(|(call, &size)| batch(call, size)).collect();
    let longest = lengths.iter().max().map_or(0, Duration::as_nanos);
    let share = |length: &Duration| (longest / (2 * length.as_nanos().max(1))).clamp(1, A_TURN.into()) as u32;
    lengths.iter().map(share).collect()
}

/// How long so many calls take.
fn batch(call: &mut Call, size: u32) -> Duration {
    let start = Instant::now();
    call(size);
    start.elapsed()
}

/// Warms up, and doubles the batch until it is long enough.
fn batch_size(call: &mut Call) -> u32 {
    let start = Instant::now();
    let mut size = 1;
    loop {
        if batch(call, size) < BATCH {
            size *= 2;
        } else if start.elapsed() >= WARM {
            return size;
        }
    }
}
