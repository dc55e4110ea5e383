//! `spacetime_rgba`.

use std::fmt;

use reference::{Rgb, caught};

use super::hold_library;
use crate::case::{Case, Difference, Fields, Verdict, hold, joined};
use crate::colours::{Palette, rgba};
use crate::ffi;
use crate::tape::smaller_number;

#[derive(Clone)]
pub struct Rgba {
    pub index: Vec<u8>,
    pub palette: Palette,
    pub length: usize,
}

impl Rgba {
    pub fn read(fields: &Fields) -> Result<Self, String> {
        let palette: Vec<u8> = fields.numbers("palette")?;
        Ok(Self {
            index: fields.numbers("index")?,
            palette: palette.try_into().map_err(|_| "palette: nine bytes")?,
            length: fields.number("length")?,
        })
    }

    fn original(&self) -> Vec<u8> {
        let colour = |at: usize| Rgb(self.palette[at], self.palette[at + 1], self.palette[at + 2]);
        let palette = reference::Palette { background: colour(0), ink: colour(3), accent: colour(6) };
        reference::rgba(&self.index, &palette)
    }
}

impl Case for Rgba {
    fn compare(&self) -> Result<Verdict, Difference> {
        let wanted = rgba(&self.index, &self.palette, self.length);
        hold_library(&ffi::rgba(&self.index, &self.palette, self.length), &wanted)?;
        if let Ok(wanted) = &wanted {
            hold("the original", &caught(|| self.original()).as_ref(), &Ok(wanted))?;
        }
        Ok(Verdict::Equal)
    }

    fn smaller(&self) -> Vec<Self> {
        let accepted = self.length == self.index.len() * 4;
        let shorter = (0..self.index.len()).map(|at| {
            let mut less = self.clone();
            less.index.remove(at);
            less.length = if accepted { less.index.len() * 4 } else { less.length };
            less
        });
        let lengths = smaller_number(self.length as u64).into_iter();
        let lengths = lengths.map(|length| Self { length: length as usize, ..self.clone() });
        let colours = (0..9).flat_map(|at| {
            smaller_number(u64::from(self.palette[at])).into_iter().map(move |byte| {
                let mut less = self.clone();
                less.palette[at] = byte as u8;
                less
            })
        });
        shorter.chain(lengths).chain(colours).collect()
    }
}

impl fmt::Display for Rgba {
    fn fmt(&self, f: &mut fmt::Formatter<'_>) -> fmt::Result {
        write!(f, "rgba index={} palette={} length={}", joined(&self.index), joined(&self.palette), self.length)
    }
}
