//! Times two calls against each other.

use std::time::{Duration, Instant};

/// A sample lasts at least so long, so that the clock's own steps are small
/// beside it.
const LEAST_SAMPLE: Duration = Duration::from_micros(200);

/// Nanoseconds for one call of each side: the medians over all rounds.
#[derive(Clone, Copy, Debug)]
pub struct Times {
    pub planner: f64,
    pub baseline: f64,
}

impl Times {
    pub fn ratio(&self) -> f64 {
        self.planner / self.baseline
    }
}

/// Times two calls in turn, sample by sample, so that what else the machine
/// does in the meantime falls on both alike.
pub fn measure(rounds: usize, mut planner: impl FnMut(), mut baseline: impl FnMut()) -> Times {
    let planner_calls = calls_in_sample(&mut planner);
    let baseline_calls = calls_in_sample(&mut baseline);
    let mut samples = [Vec::new(), Vec::new()];
    for _ in 0..rounds {
        samples[0].push(sample(planner_calls, &mut planner));
        samples[1].push(sample(baseline_calls, &mut baseline));
    }
    let [planner, baseline] = samples.map(median);
    Times { planner, baseline }
}

/// Nanoseconds for one call of each of some kinds, in the same way: their
/// samples take turns, and each time is a median.
pub fn measure_each(rounds: usize, calls: &mut [Box<dyn FnMut() + '_>]) -> Vec<f64> {
    let counts: Vec<u32> = calls.iter_mut().map(calls_in_sample).collect();
    let mut samples = vec![Vec::new(); calls.len()];
    for _ in 0..rounds {
        for ((call, count), samples) in calls.iter_mut().zip(&counts).zip(&mut samples) {
            samples.push(sample(*count, call));
        }
    }
    samples.into_iter().map(median).collect()
}

/// How many calls make a sample that is long enough.
fn calls_in_sample(call: &mut impl FnMut()) -> u32 {
    let mut calls = 1;
    while time(calls, call) < LEAST_SAMPLE {
        calls *= 2;
    }
    calls
}

/// Nanoseconds for one call.
fn sample(calls: u32, call: &mut impl FnMut()) -> f64 {
    time(calls, call).as_nanos() as f64 / f64::from(calls)
}

fn time(calls: u32, call: &mut impl FnMut()) -> Duration {
    let start = Instant::now();
    for _ in 0..calls {
        call();
    }
    start.elapsed()
}

fn median(mut samples: Vec<f64>) -> f64 {
    samples.sort_by(f64::total_cmp);
    samples[samples.len() / 2]
}
