//! Medians of two functions timed in turn, so that both meet the same machine.

use std::fmt;
use std::hint::black_box;
use std::time::{Duration, Instant};

/// Microseconds of one call.
pub struct Row {
    gate: f64,
    reference: f64,
}

impl fmt::Display for Row {
    fn fmt(&self, f: &mut fmt::Formatter<'_>) -> fmt::Result {
        let Row { gate, reference } = self;
        let ratio = gate / reference;
        write!(f, "{gate:>9.3} µs {reference:>9.3} µs {ratio:>7.2}")
    }
}

impl Row {
    /// What is left of both times without another's.
    pub fn less(&self, other: &Row) -> Row {
        Row {
            gate: self.gate - other.gate,
            reference: self.reference - other.reference,
        }
    }

    /// By which power of the size both have grown, where the size has grown that many times.
    pub fn exponents(&self, first: &Row, times: f64) -> (f64, f64) {
        let power = |last: f64, first: f64| (last / first).ln() / times.ln();
        (
            power(self.gate, first.gate),
            power(self.reference, first.reference),
        )
    }
}

/// Both must give the same answer; each sample is as many calls as fill about
/// a millisecond of the slower one's time.
pub fn side_by_side<T: PartialEq + fmt::Debug>(
    mut gate: impl FnMut() -> T,
    mut reference: impl FnMut() -> T,
) -> Row {
    assert_eq!(gate(), reference());
    let calls = calls_per_sample(&mut gate).min(calls_per_sample(&mut reference));
    let mut samples = (Vec::new(), Vec::new());
    for _ in 0..101 {
        samples.0.push(sample(&mut gate, calls));
        samples.1.push(sample(&mut reference, calls));
    }
    Row {
        gate: micros(samples.0, calls),
        reference: micros(samples.1, calls),
    }
}

fn calls_per_sample<T>(call: &mut impl FnMut() -> T) -> u32 {
    let start = Instant::now();
    let mut calls = 0;
    while start.elapsed() < Duration::from_millis(1) {
        black_box(call());
        calls += 1;
    }
    calls
}

fn sample<T>(call: &mut impl FnMut() -> T, calls: u32) -> Duration {
    let start = Instant::now();
    for _ in 0..calls {
        black_box(call());
    }
    start.elapsed()
}

/// The median sample, by the call.
fn micros(mut samples: Vec<Duration>, calls: u32) -> f64 {
    samples.sort();
    samples[samples.len() / 2].as_secs_f64() * 1e6 / f64::from(calls)
}
