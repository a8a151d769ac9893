//! Times of calls: best and median, in nanoseconds.
use std::time::{Duration, Instant};

#[derive(Clone, Copy)]
pub struct Time {
    pub best: f64,
    pub median: f64,
}

/// A sample is one call, or so many that it takes 50 microseconds.
const SAMPLE: f64 = 50_000.0;
/// A call that takes longer is not repeated.
const LONG: Duration = Duration::from_secs(5);

fn sample(call: &mut dyn FnMut(), times: usize) -> f64 {
    let start = Instant::now();
    (0..times).for_each(|_| call());
    start.elapsed().as_nanos() as f64 / times as f64
}

/// Takes samples of the calls in turn, for so many seconds and at least three times, after a first one that warms up.
pub fn times(seconds: f64, calls: &mut [&mut dyn FnMut()]) -> Vec<Time> {
    let first: Vec<f64> = calls.iter_mut().map(|c| sample(*c, 1)).collect();
    if first.iter().any(|t| *t > LONG.as_nanos() as f64) {
        return first.into_iter().map(|t| Time { best: t, median: t }).collect();
    }
    let counts: Vec<usize> = calls.iter_mut().map(|c| (SAMPLE / sample(*c, 1).max(1.0)).ceil() as usize).collect();
    let mut samples = vec![Vec::new(); calls.len()];
    let start = Instant::now();
    while samples[0].len() < 3 || start.elapsed().as_secs_f64() < seconds {
        for ((call, count), into) in calls.iter_mut().zip(&counts).zip(&mut samples) {
            into.push(sample(*call, *count));
        }
    }
    samples.into_iter().map(of_samples).collect()
}

fn of_samples(mut samples: Vec<f64>) -> Time {
    samples.sort_by(f64::total_cmp);
    Time { best: samples[0], median: samples[samples.len() / 2] }
}

/// Three digits and a unit.
pub fn text(nanoseconds: f64) -> String {
    let (value, unit) = match nanoseconds {
        n if n < 1e3 => (n, "ns"),
        n if n < 1e6 => (n / 1e3, "µs"),
        n if n < 1e9 => (n / 1e6, "ms"),
        n => (n / 1e9, "s"),
    };
    let digits = if value < 10.0 { 2 } else { usize::from(value < 100.0) };
    format!("{value:.digits$} {unit}")
}
