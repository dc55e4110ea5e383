//! Tallies of runs that begin and end on and beside the borders of bins, of cells and of the window, in any order: of
//! few cells and of many, of as many cells as bins, one more and fewer, of prime counts.

use random::Rng;

use super::pixels::{beside_a_border, cells_over, first};
use crate::calls::{MOST_CELLS, Tallies};
use crate::columns::{HIGHEST, LOWEST, MOST_PIXELS, ZERO};
use crate::count::Count;

const WIDTHS: [u64; 14] = [1, 2, 3, 4, 5, 7, 8, 11, 31, 97, 1021, 4093, 4095, 4096];
const SMALL_WINDOWS: u32 = 60_000;
const RANDOM_WINDOWS: u32 = 6_000;

pub fn run(count: &mut Count, rng: &mut Rng) {
    every_run(count);
    for width in WIDTHS {
        for cells in cells_over(width) {
            for _ in 0..3 {
                tally(count, rng, width, cells);
            }
        }
    }
    for _ in 0..SMALL_WINDOWS {
        let (width, cells) = (rng.within(1, 12), rng.within(1, 40));
        tally(count, rng, width, cells);
    }
    for _ in 0..RANDOM_WINDOWS {
        let (width, cells) = (rng.of_any_size(MOST_PIXELS), rng.of_any_size(MOST_CELLS));
        tally(count, rng, width, cells);
    }
    refused(count);
}

/// Each run of each small window, alone.
fn every_run(count: &mut Count) {
    for width in 1..=7 {
        for cells in 1..=15 {
            for low in 0..cells + 2 {
                for high in 0..cells + 2 {
                    let (low, high) = (vec![ZERO - 1 + low], vec![ZERO - 1 + high]);
                    count.take(&Tallies { width, first: ZERO, cells, low, high });
                }
            }
        }
    }
}

fn tally(count: &mut Count, rng: &mut Rng, width: u64, cells: u64) {
    let first = first(rng, cells);
    let runs = rng.pick(&[1, 2, 3, 8, 20]);
    let mut runs: Vec<(u64, u64)> = (0..runs).map(|_| one_run(rng, width, first, cells)).collect();
    match rng.below(3) {
        0 => runs.sort_unstable(),
        1 => runs.sort_unstable_by(|a, b| b.cmp(a)),
        _ => {}
    }
    let (low, high) = runs.into_iter().unzip();
    count.take(&Tallies { width: width as usize, first, cells, low, high });
}

/// A run that meets the window or misses it, and at times the wrong way round.
fn one_run(rng: &mut Rng, width: u64, first: u64, cells: u64) -> (u64, u64) {
    let from = first + beside_a_border(rng, width, cells);
    let to = first + beside_a_border(rng, width, cells);
    let (low, high) = (from.min(to), from.max(to));
    let any = rng.number();
    let below = rng.pick(&[0, LOWEST, first - 1, first]);
    let above = rng.pick(&[first + cells - 1, first + cells, HIGHEST, u64::MAX]);
    rng.pick(&[
        (low, high),
        (low, high),
        (low, high),
        (low, low),
        (below, high),
        (low, above),
        (below, above),
        (below, below),
        (above, above),
        (high, low),
        (any, above),
    ])
}

/// Around every bound of what the probe takes.
fn refused(count: &mut Count) {
    for width in [0, 1, 4095, 4096, 4097, 5000] {
        for cells in [0, 1, 4097, MOST_CELLS, MOST_CELLS + 1, u64::MAX] {
            for first in
                [0, ZERO, u64::MAX - MOST_CELLS, u64::MAX - cells, (u64::MAX - cells).wrapping_add(1), u64::MAX]
            {
                for (lows, highs) in [(0, 0), (1, 1), (0, 1), (1, 0), (2, 1)] {
                    let (low, high) = (vec![first; lows], vec![first; highs]);
                    count.take(&Tallies { width, first, cells, low, high });
                }
            }
        }
    }
    for runs in [4095, 4096, 4097] {
        for (width, cells) in [(1, MOST_CELLS), (3, 10)] {
            let (low, high) = (vec![ZERO; runs], vec![ZERO + cells; runs]);
            count.take(&Tallies { width, first: ZERO, cells, low, high });
        }
    }
}
