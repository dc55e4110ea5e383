//! `head` of the crate columns, by its probe.

use std::fmt;

use reference::{Bins, Tape, caught};

use super::{as_the_original_lays_it_out, hold_found, line_of, pixels_of};
use crate::case::{Case, Difference, Fields, Verdict, hold};
use crate::columns::{Columns, Found, ZERO};
use crate::ffi;
use crate::tape::smaller_number;

#[derive(Clone)]
pub struct Head {
    pub width: u64,
    pub columns: Columns,
    pub position: u64,
}

/// The index byte of the head.
const HEAD: u8 = 255;

impl Head {
    pub fn read(fields: &Fields) -> Result<Self, String> {
        let position = fields.number("position")?;
        Ok(Self { width: fields.number("width")?, columns: Columns::read(fields)?, position })
    }

    /// What the original finds: the bin of a cell of the window, or the pixels that it draws.
    fn original(&self) -> Option<Option<Found>> {
        match self.columns {
            Columns::Bins { cells, width, .. } => {
                let (k, _) = self.columns.clipped(self.position, self.position)?;
                let bin = Bins::new(cells, width as u32).of(k) as u64;
                Some(Some((bin, bin)))
            }
            Columns::Cells { .. } => {
                let mut picture = as_the_original_lays_it_out(self.width, self.columns)?;
                picture.draw(&Tape::new((self.position ^ ZERO).cast_signed(), 0, [], []), None);
                Some(pixels_of(line_of(&picture, self.width), HEAD))
            }
        }
    }
}

impl Case for Head {
    fn compare(&self) -> Result<Verdict, Difference> {
        let Self { width, columns, position } = *self;
        hold_found(&ffi::head(width, columns, position), width, columns, || columns.head(position))?;
        if columns.sound_in(width)
            && let Some(found) = caught(|| self.original()).transpose()
        {
            hold("the original", &found, &Ok(columns.head(position)))?;
        }
        Ok(Verdict::Equal)
    }

    fn smaller(&self) -> Vec<Self> {
        let widths = smaller_number(self.width).into_iter().map(|width| Self { width, ..self.clone() });
        let columns = self.columns.smaller().into_iter().map(|columns| Self { columns, ..self.clone() });
        let places = smaller_number(self.position).into_iter().map(|position| Self { position, ..self.clone() });
        widths.chain(columns).chain(places).collect()
    }
}

impl fmt::Display for Head {
    fn fmt(&self, f: &mut fmt::Formatter<'_>) -> fmt::Result {
        write!(f, "head width={} {} position={}", self.width, self.columns, self.position)
    }
}
