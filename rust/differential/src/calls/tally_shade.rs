//! `tally_shade` of the crate shade, by its probe.

use std::fmt;

use super::OUTSIDE;
use crate::case::{Case, Difference, Fields, Verdict, hold};
use crate::ffi;
use crate::tape::smaller_number;

/// The most cells that bins may have.
pub const MOST_CELLS: u64 = 1 << 50;

#[derive(Clone)]
pub struct TallyShade {
    pub tally: u64,
    pub cells: u64,
}

impl TallyShade {
    pub fn read(fields: &Fields) -> Result<Self, String> {
        Ok(Self { tally: fields.number("tally")?, cells: fields.number("cells")? })
    }

    /// What the original's bin shows, which has to be the ink of the share.
    fn original(&self) -> Result<u8, Difference> {
        let Self { tally, cells } = *self;
        let shade = reference::tally_shade(tally, cells);
        if tally > 0 {
            hold("the original's bin", &shade, &reference::ink_shade(tally as f64 / cells as f64))?;
        }
        Ok(shade)
    }
}

impl Case for TallyShade {
    fn compare(&self) -> Result<Verdict, Difference> {
        let Self { tally, cells } = *self;
        let within = 0 < cells && cells <= MOST_CELLS && tally <= cells;
        let wanted = if within { self.original()? } else { OUTSIDE };
        hold("the library", &ffi::probe_tally_shade(tally, cells), &wanted)?;
        Ok(Verdict::Equal)
    }

    fn smaller(&self) -> Vec<Self> {
        let tally = smaller_number(self.tally).into_iter().map(|tally| Self { tally, ..self.clone() });
        let cells = smaller_number(self.cells).into_iter().map(|cells| Self { cells, ..self.clone() });
        tally.chain(cells).collect()
    }
}

impl fmt::Display for TallyShade {
    fn fmt(&self, f: &mut fmt::Formatter<'_>) -> fmt::Result {
        write!(f, "tally_shade tally={} cells={}", self.tally, self.cells)
    }
}
