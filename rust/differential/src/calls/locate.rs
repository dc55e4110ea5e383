//! `locate` of the crate columns, by its probe.

use std::fmt;

use reference::{Bins, Picture, Tape, caught};

use super::{as_the_original_lays_it_out, hold_found};
use crate::case::{Case, Difference, Fields, Verdict, hold};
use crate::columns::{Columns, Found, ZERO};
use crate::ffi;
use crate::tape::smaller_number;

#[derive(Clone)]
pub struct Locate {
    pub width: u64,
    pub columns: Columns,
    pub x: u64,
}

impl Locate {
    pub fn read(fields: &Fields) -> Result<Self, String> {
        Ok(Self { width: fields.number("width")?, columns: Columns::read(fields)?, x: fields.number("x")? })
    }

    /// What the original finds; it is asked about its own pictures alone.
    fn original(&self) -> Option<Option<Found>> {
        match self.columns {
            Columns::Bins { first, cells, width } => Some((self.x < width).then(|| {
                let (from, to) = Bins::new(cells, width as u32).cells_of(self.x as u32);
                (first + from, first + to)
            })),
            Columns::Cells { .. } => {
                let mut picture = as_the_original_lays_it_out(self.width, self.columns)?;
                picture.draw(&Tape::new(0, 0, [], []), None);
                Some(in_picture(&picture, u32::try_from(self.x).ok()?))
            }
        }
    }
}

fn in_picture(picture: &Picture, x: u32) -> Option<Found> {
    let located = picture.locate(x, 0)?;
    Some((located.from.cast_unsigned() ^ ZERO, located.to.cast_unsigned() ^ ZERO))
}

impl Case for Locate {
    fn compare(&self) -> Result<Verdict, Difference> {
        let Self { width, columns, x } = *self;
        hold_found(&ffi::locate(width, columns, x), width, columns, || columns.located(x))?;
        if columns.sound_in(width)
            && let Some(found) = caught(|| self.original()).transpose()
        {
            hold("the original", &found, &Ok(columns.located(x)))?;
        }
        Ok(Verdict::Equal)
    }

    fn smaller(&self) -> Vec<Self> {
        let widths = smaller_number(self.width).into_iter().map(|width| Self { width, ..self.clone() });
        let columns = self.columns.smaller().into_iter().map(|columns| Self { columns, ..self.clone() });
        let places = smaller_number(self.x).into_iter().map(|x| Self { x, ..self.clone() });
        widths.chain(columns).chain(places).collect()
    }
}

impl fmt::Display for Locate {
    fn fmt(&self, f: &mut fmt::Formatter<'_>) -> fmt::Result {
        write!(f, "locate width={} {} x={}", self.width, self.columns, self.x)
    }
}
