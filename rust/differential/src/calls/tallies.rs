//! `add_run` of the crate columns, over a list of runs and from cleared tallies, by its probe.

use std::fmt;

use reference::{Bins, caught};

use super::{OUTSIDE, hold_library};
use crate::calls::MOST_CELLS;
use crate::case::{Case, Difference, Fields, Verdict, hold, joined};
use crate::columns::{Found, MOST_PIXELS, clipped, overlaps};
use crate::ffi;
use crate::tape::smaller_number;

/// Runs of positions over bins: they may lie beside the window, have their ends reversed, or cover a cell twice.
#[derive(Clone)]
pub struct Tallies {
    pub width: usize,
    pub first: u64,
    pub cells: u64,
    pub low: Vec<u64>,
    pub high: Vec<u64>,
}

/// The most runs that the probe takes at once.
pub const MOST_RUNS: usize = 4096;

/// Windows of at most so many cells are also tallied cell by cell.
const CELL_BY_CELL: u64 = 200;

/// In at most so many bins the original is started from every cursor.
const EVERY_CURSOR: usize = 12;

impl Tallies {
    pub fn read(fields: &Fields) -> Result<Self, String> {
        Ok(Self {
            width: fields.number("width")?,
            first: fields.number("first")?,
            cells: fields.number("cells")?,
            low: fields.numbers("low")?,
            high: fields.numbers("high")?,
        })
    }

    fn taken(&self) -> bool {
        self.width as u64 <= MOST_PIXELS
            && (1..=MOST_CELLS).contains(&self.cells)
            && self.first.checked_add(self.cells).is_some()
            && self.low.len() <= MOST_RUNS
            && self.low.len() == self.high.len()
    }

    /// The runs as cells of the window.
    fn runs(&self) -> Vec<Found> {
        let pairs = self.low.iter().zip(&self.high);
        pairs.filter_map(|(&low, &high)| clipped(self.first, self.cells, low, high)).collect()
    }

    /// The sum of the overlaps of each bin with the runs.
    fn model(&self, runs: &[Found]) -> Vec<u128> {
        let mut tallies = vec![0; self.width];
        for &run in runs {
            add(&mut tallies, overlaps(self.width, self.cells, run));
        }
        tallies
    }

    fn cell_by_cell(&self, runs: &[Found]) -> Vec<u128> {
        let mut tallies = vec![0; self.width];
        for cell in runs.iter().flat_map(|&(lo, hi)| lo..=hi) {
            add(&mut tallies, overlaps(self.width, self.cells, (cell, cell)));
        }
        tallies
    }

    fn original(&self, runs: &[Found], cursor: usize) -> Vec<u128> {
        let bins = Bins::new(self.cells, self.width as u32);
        let mut tallies = vec![0; self.width];
        let mut cursor = cursor;
        for &(lo, hi) in runs {
            bins.add(&mut tallies, &mut cursor, lo, hi);
        }
        tallies
    }

    fn cursors(&self) -> Vec<usize> {
        if self.width <= EVERY_CURSOR { (0..self.width).collect() } else { vec![0, self.width / 2, self.width - 1] }
    }
}

fn add(tallies: &mut [u128], overlaps: impl Iterator<Item = u128>) {
    for (tally, overlap) in tallies.iter_mut().zip(overlaps) {
        *tally += overlap;
    }
}

impl Case for Tallies {
    fn compare(&self) -> Result<Verdict, Difference> {
        let answer = ffi::tallies(self.width, self.first, self.cells, &self.low, &self.high);
        if !self.taken() {
            hold_library(&answer, &Err(u32::from(OUTSIDE)))?;
            return Ok(Verdict::Equal);
        }
        let runs = self.runs();
        let wanted = self.model(&runs);
        let words = wanted.iter().map(|&tally| u64::try_from(tally).expect("4096 times 2^50 at most")).collect();
        hold_library(&answer, &Ok(words))?;
        if self.cells <= CELL_BY_CELL {
            hold("the sum over cells", &self.cell_by_cell(&runs), &wanted)?;
        }
        for cursor in self.cursors() {
            hold("the original", &caught(|| self.original(&runs, cursor)).as_ref(), &Ok(&wanted))?;
        }
        Ok(Verdict::Equal)
    }

    fn smaller(&self) -> Vec<Self> {
        let without = (0..self.low.len().min(self.high.len())).map(|at| {
            let mut less = self.clone();
            less.low.remove(at);
            less.high.remove(at);
            less
        });
        let widths =
            smaller_number(self.width as u64).into_iter().map(|width| Self { width: width as usize, ..self.clone() });
        let cells = smaller_number(self.cells).into_iter().map(|cells| Self { cells, ..self.clone() });
        let moved = smaller_number(self.first).into_iter().map(|first| {
            let back = |ends: &[u64]| ends.iter().map(|&end| end.saturating_sub(self.first - first)).collect();
            Self { first, low: back(&self.low), high: back(&self.high), ..self.clone() }
        });
        without.chain(widths).chain(cells).chain(moved).collect()
    }
}

impl fmt::Display for Tallies {
    fn fmt(&self, f: &mut fmt::Formatter<'_>) -> fmt::Result {
        let Self { width, first, cells, low, high } = self;
        write!(f, "tallies width={width} first={first} cells={cells} low={} high={}", joined(low), joined(high))
    }
}
