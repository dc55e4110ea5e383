//! How true the ink of a bin is (RULES, Greys): `tally_shade` of the crate shade, by its probe, held to the bound in whole
//! numbers and to the ink of the tally below.

use std::fmt;

use super::MOST_CELLS;
use crate::case::{Case, Difference, Fields, Verdict};
use crate::ffi;
use crate::tape::smaller_number;

/// The least ink, and the range times two: an ink has `2 * cells` parts, and so has the range's share of a tally.
const LEAST: i128 = 8;
const TWICE_THE_RANGE: i128 = 112;

/// A bin that has an ink: the tally is 1 to `cells`, which are at most the most cells.
#[derive(Copy, Clone)]
pub struct Grey {
    pub tally: u64,
    pub cells: u64,
}

impl Grey {
    pub fn read(fields: &Fields) -> Result<Self, String> {
        let grey = Self { tally: fields.number("tally")?, cells: fields.number("cells")? };
        if grey.has_ink() { Ok(grey) } else { Err("no bin that has an ink".to_string()) }
    }

    pub fn has_ink(self) -> bool {
        0 < self.tally && self.tally <= self.cells && self.cells <= MOST_CELLS
    }

    fn ink(self) -> u8 {
        ffi::probe_tally_shade(self.tally, self.cells)
    }

    /// How far the ink lies from its tally beyond half an ink; below 0 where it lies nearer.
    pub fn past_half(self) -> i128 {
        let [tally, cells] = [self.tally, self.cells].map(i128::from);
        (2 * cells * (i128::from(self.ink()) - LEAST) - TWICE_THE_RANGE * tally).abs() - cells
    }

    /// How far it may lie beyond half an ink.
    pub fn room(self) -> i128 {
        i128::from(self.tally >> 45)
    }
}

impl Case for Grey {
    fn compare(&self) -> Result<Verdict, Difference> {
        let (past, room) = (self.past_half(), self.room());
        if past > room {
            return Err(Difference(format!(
                "the ink {} is {past} past half an ink, wanted {room} at most",
                self.ink()
            )));
        }
        let below = ffi::probe_tally_shade(self.tally - 1, self.cells);
        if below > self.ink() {
            return Err(Difference(format!("the ink {} is below {below}, that of a smaller tally", self.ink())));
        }
        Ok(Verdict::Equal)
    }

    fn smaller(&self) -> Vec<Self> {
        let tally = smaller_number(self.tally).into_iter().map(|tally| Self { tally, ..*self });
        let cells = smaller_number(self.cells).into_iter().map(|cells| Self { cells, ..*self });
        tally.chain(cells).filter(|grey| grey.has_ink()).collect()
    }
}

impl fmt::Display for Grey {
    fn fmt(&self, f: &mut fmt::Formatter<'_>) -> fmt::Result {
        write!(f, "grey tally={} cells={}", self.tally, self.cells)
    }
}
