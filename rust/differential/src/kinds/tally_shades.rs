//! Tallies and cells at and around every power of two, next to every tie of the rounding, and anywhere.

use random::Rng;

use crate::calls::{MOST_CELLS, TallyShade};
use crate::count::Count;

const RANDOM_CELLS: u32 = 2_000;
const RANDOM_PAIRS: u32 = 500_000;

pub fn run(count: &mut Count, rng: &mut Rng) {
    let powers = powers_of_two();
    let random: Vec<u64> = (0..RANDOM_CELLS).map(|_| rng.of_any_size(MOST_CELLS)).collect();
    for &cells in &powers {
        for &tally in &powers {
            count.take(&TallyShade { tally, cells });
        }
    }
    for &cells in powers.iter().chain(&random) {
        at_ties(count, cells);
        at_ties(count, with_ties(cells));
    }
    for _ in 0..RANDOM_PAIRS {
        let cells = rng.of_any_size(MOST_CELLS);
        let tally = if rng.one_in(2) { rng.within(0, cells) } else { rng.of_any_size(cells) };
        count.take(&TallyShade { tally, cells });
    }
    for cells in 0..=300 {
        for tally in 0..=cells + 1 {
            count.take(&TallyShade { tally, cells });
        }
    }
}

/// Every power of two with its neighbours, past the most cells and up to the last number too.
fn powers_of_two() -> Vec<u64> {
    let around = (0..64).map(|bits| 1 << bits).flat_map(|power: u64| [power - 1, power, power + 1]);
    let mut numbers: Vec<u64> = around.chain([u64::MAX]).collect();
    numbers.dedup();
    numbers
}

/// Tallies whose share times 56 is at or near k + 1/2, which is (2k + 1) / 112 of the cells.
fn at_ties(count: &mut Count, cells: u64) {
    for k in 0..56 {
        let tie = u128::from(cells) * (2 * k + 1) / 112;
        for tally in tie.saturating_sub(2)..=tie + 3 {
            count.take(&TallyShade { tally: u64::try_from(tally).unwrap_or(u64::MAX), cells });
        }
    }
}

/// A number of cells near `cells` where every tie is a whole tally.
fn with_ties(cells: u64) -> u64 {
    (cells / 112).max(1) * 112
}
