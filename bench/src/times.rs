//! Times of two calls that are measured in turn.

use std::hint::black_box;
use std::time::{Duration, Instant};

/// How a call is measured.
#[derive(Clone, Copy)]
pub struct Effort {
    pub measurements: usize,
    /// One measurement repeats its call until this is over, so that the clock's grain does not count.
    pub least_time: Duration,
}

/// Microseconds a call, a number for each measurement: of the archive and of the peer.
pub struct Times {
    archive: Vec<f64>,
    peer: Vec<f64>,
}

/// One number of microseconds for the archive and one for the peer.
#[derive(Clone, Copy)]
pub struct Both {
    pub archive: f64,
    pub peer: f64,
}

impl Both {
    pub fn lesser(self, other: Both) -> Both {
        Both { archive: self.archive.min(other.archive), peer: self.peer.min(other.peer) }
    }
}

impl Times {
    /// Both calls warmed up, then measured in turn, with the first of the two alternating.
    pub fn of<A, P>(
        effort: Effort,
        mut archive: impl FnMut() -> A,
        mut peer: impl FnMut() -> P,
    ) -> Times {
        let archive_batch = batch(&mut archive, effort.least_time);
        let peer_batch = batch(&mut peer, effort.least_time);
        let mut times = Times { archive: Vec::new(), peer: Vec::new() };
        for measurement in 0..effort.measurements {
            if measurement % 2 == 0 {
                times.archive.push(time(&mut archive, archive_batch));
                times.peer.push(time(&mut peer, peer_batch));
            } else {
                times.peer.push(time(&mut peer, peer_batch));
                times.archive.push(time(&mut archive, archive_batch));
            }
        }
        times
    }

    pub fn medians(&self) -> Both {
        Both { archive: median(&self.archive), peer: median(&self.peer) }
    }

    pub fn least(&self) -> Both {
        Both { archive: least(&self.archive), peer: least(&self.peer) }
    }
}

/// How many calls fill the least time; finding it is the warm-up.
fn batch<T>(call: &mut impl FnMut() -> T, least_time: Duration) -> u32 {
    let mut calls = 1;
    while repeat(call, calls) < least_time {
        calls *= 2;
    }
    calls
}

fn time<T>(call: &mut impl FnMut() -> T, calls: u32) -> f64 {
    repeat(call, calls).as_secs_f64() * 1e6 / f64::from(calls)
}

fn repeat<T>(call: &mut impl FnMut() -> T, calls: u32) -> Duration {
    let start = Instant::now();
    for _ in 0..calls {
        black_box(call());
    }
    start.elapsed()
}

pub fn sorted(times: &[f64]) -> Vec<f64> {
    let mut sorted = times.to_vec();
    sorted.sort_by(f64::total_cmp);
    sorted
}

pub fn median(times: &[f64]) -> f64 {
    let times = sorted(times);
    let middle = times.len() / 2;
    match times.len() % 2 {
        0 => (times[middle - 1] + times[middle]) / 2.0,
        _ => times[middle],
    }
}

fn least(times: &[f64]) -> f64 {
    times.iter().copied().fold(f64::INFINITY, f64::min)
}
