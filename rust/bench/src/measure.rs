//! Medians of several sides of one task, or the least of each, taken in turns so that what else the machine does meets all
//! of them.

use std::time::{Duration, Instant};

/// One sample lasts at least this long: a shorter call is repeated within it.
const SAMPLE: Duration = Duration::from_micros(400);

/// How many samples each side gets.
pub const SAMPLES: usize = 101;

/// How many it gets of a call that takes a part of a second.
pub const FEW: usize = 11;

/// The seconds that one call of each side took, sample by sample.
pub struct Measured<const N: usize> {
    samples: [Vec<f64>; N],
}

pub fn measure<const N: usize>(sides: [&mut dyn FnMut(); N]) -> Measured<N> {
    in_turns(SAMPLES, sides)
}

/// A sample of each side to a round.
pub fn in_turns<const N: usize>(rounds: usize, mut sides: [&mut dyn FnMut(); N]) -> Measured<N> {
    let calls: [u32; N] = std::array::from_fn(|side| calls_in_a_sample(sides[side]));
    let mut samples: [Vec<f64>; N] = std::array::from_fn(|_| Vec::with_capacity(rounds));
    for _ in 0..rounds {
        for side in 0..N {
            samples[side].push(timed(sides[side], calls[side]) / f64::from(calls[side]));
        }
    }
    Measured { samples }
}

/// The same for calls of which each uses up what it is handed: a side makes that anew, times its one call and gives the seconds.
pub fn self_timed<const N: usize>(mut sides: [&mut dyn FnMut() -> f64; N]) -> Measured<N> {
    let mut samples: [Vec<f64>; N] = std::array::from_fn(|_| Vec::with_capacity(SAMPLES));
    for _ in 0..SAMPLES {
        for (side, samples) in sides.iter_mut().zip(&mut samples) {
            samples.push(side());
        }
    }
    Measured { samples }
}

/// The seconds of one call.
pub fn seconds(call: impl FnOnce()) -> f64 {
    let began = Instant::now();
    call();
    began.elapsed().as_secs_f64()
}

impl<const N: usize> Measured<N> {
    /// The median time of a side, in seconds.
    pub fn seconds(&self, side: usize) -> f64 {
        median(self.samples[side].clone())
    }

    /// The median time of a side, as text.
    pub fn time(&self, side: usize) -> String {
        time(self.seconds(side))
    }

    /// How many times as long one side takes as another: the median over the rounds, in each of which the two are
    /// timed one after the other, so that a busier machine slows both.
    pub fn times_as_long(&self, one: usize, other: usize) -> f64 {
        let rounds = self.samples[one].iter().zip(&self.samples[other]);
        median(rounds.map(|(one, other)| one / other).collect())
    }

    /// The same as text.
    pub fn ratio(&self, one: usize, other: usize) -> String {
        figures(self.times_as_long(one, other))
    }

    /// The least time of a side, in seconds: that of a sample in which nothing else had the core.
    pub fn least(&self, side: usize) -> f64 {
        self.samples[side].iter().copied().fold(f64::INFINITY, f64::min)
    }
}

impl Measured<2> {
    /// The last three cells of a table's line: ours, the Rust's and the ratio.
    pub fn cells(&self) -> String {
        format!("{} | {} | {} |", self.time(0), self.time(1), self.ratio(0, 1))
    }
}

/// Seconds with their unit.
pub fn time(seconds: f64) -> String {
    let units = [(1.0, "s"), (1e-3, "ms"), (1e-6, "µs"), (1e-9, "ns")];
    let (unit, name) = units.into_iter().find(|(unit, _)| seconds >= *unit).unwrap_or((1e-9, "ns"));
    format!("{} {name}", figures(seconds / unit))
}

/// Each number of calls is timed three times: a single time may be long because something else had the core, and samples of
/// too few calls would time the clock too.
fn calls_in_a_sample(side: &mut dyn FnMut()) -> u32 {
    let mut calls = 1;
    while (0..3).any(|_| timed(side, calls) < SAMPLE.as_secs_f64()) && calls < 1 << 20 {
        calls *= 2;
    }
    calls
}

fn timed(side: &mut dyn FnMut(), calls: u32) -> f64 {
    let began = Instant::now();
    for _ in 0..calls {
        side();
    }
    began.elapsed().as_secs_f64()
}

pub fn median(mut samples: Vec<f64>) -> f64 {
    samples.sort_by(f64::total_cmp);
    samples[samples.len() / 2]
}

/// Three figures.
pub fn figures(number: f64) -> String {
    let decimals = match number {
        n if n >= 99.95 => 0,
        n if n >= 9.995 => 1,
        _ => 2,
    };
    format!("{number:.decimals$}")
}
