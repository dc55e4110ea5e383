//! `swept` of the crate columns, by its probe.

use std::fmt;

use reference::{Bins, Tape, caught};

use super::{as_the_original_overviews_it, hold_found, line_of, pixels_of};
use crate::case::{Case, Difference, Fields, Verdict, hold};
use crate::columns::{Columns, Found, HIGHEST, LOWEST, ZERO};
use crate::ffi;
use crate::tape::smaller_number;

#[derive(Clone)]
pub struct Swept {
    pub width: u64,
    pub columns: Columns,
    pub low: u64,
    pub high: u64,
}

/// The index byte of swept paper.
const SWEPT: u8 = 254;

impl Swept {
    pub fn read(fields: &Fields) -> Result<Self, String> {
        let (low, high) = (fields.number("low")?, fields.number("high")?);
        Ok(Self { width: fields.number("width")?, columns: Columns::read(fields)?, low, high })
    }

    /// What the original finds: the bins of cells of the window, or the pixels that it tints in an overview, which is
    /// handed pairs within the domain, low first, alone.
    fn original(&self) -> Option<Option<Found>> {
        let Self { width, columns, low, high } = *self;
        match columns {
            Columns::Bins { cells, width, .. } => {
                let (lo, hi) = columns.clipped(low, high)?;
                let (from, to) = Bins::new(cells, width as u32).overlapping(lo, hi);
                Some(Some((from as u64, to as u64)))
            }
            Columns::Cells { .. } => {
                let taken = LOWEST <= low && low <= high && high <= HIGHEST;
                let mut picture = as_the_original_overviews_it(width, columns).filter(|_| taken)?;
                // The head stands far outside the window.
                let head = if columns.clipped(HIGHEST, HIGHEST).is_none() { HIGHEST } else { LOWEST };
                let signed = |position: u64| (position ^ ZERO).cast_signed();
                picture.draw(&Tape::new(signed(head), 0, [], []), Some((signed(low), signed(high))));
                Some(pixels_of(line_of(&picture, width), SWEPT))
            }
        }
    }
}

impl Case for Swept {
    fn compare(&self) -> Result<Verdict, Difference> {
        let Self { width, columns, low, high } = *self;
        hold_found(&ffi::swept(width, columns, low, high), width, columns, || columns.swept(low, high))?;
        if columns.sound_in(width)
            && let Some(found) = caught(|| self.original()).transpose()
        {
            hold("the original", &found, &Ok(columns.swept(low, high)))?;
        }
        Ok(Verdict::Equal)
    }

    fn smaller(&self) -> Vec<Self> {
        let widths = smaller_number(self.width).into_iter().map(|width| Self { width, ..self.clone() });
        let columns = self.columns.smaller().into_iter().map(|columns| Self { columns, ..self.clone() });
        let lows = smaller_number(self.low).into_iter().map(|low| Self { low, ..self.clone() });
        let highs = smaller_number(self.high).into_iter().map(|high| Self { high, ..self.clone() });
        widths.chain(columns).chain(lows).chain(highs).collect()
    }
}

impl fmt::Display for Swept {
    fn fmt(&self, f: &mut fmt::Formatter<'_>) -> fmt::Result {
        write!(f, "swept width={} {} low={} high={}", self.width, self.columns, self.low, self.high)
    }
}
