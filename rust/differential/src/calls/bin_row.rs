//! A row in bins, put together from the probes as the rules say (RULES, Rows): tallies, their shades, swept pair and head.

use std::fmt;

use reference::{Bins, caught};

use super::{as_the_original_takes_it, hold_library, original, read_swept, swept_text};
use crate::case::{Case, Difference, Fields, Verdict, hold};
use crate::columns::{Columns, ZERO};
use crate::tape::{Tape, smaller_number};
use crate::{ffi, model, rows};

/// The tape is sound, and so are bins over these cells; a swept pair is low first and within the domain.
#[derive(Clone)]
pub struct BinRow {
    pub tape: Tape,
    pub width: u64,
    pub first: u64,
    pub cells: u64,
    pub swept: Option<(i64, i64)>,
}

impl BinRow {
    pub fn read(fields: &Fields) -> Result<Self, String> {
        Ok(Self {
            tape: Tape::read(fields)?,
            width: fields.number("width")?,
            first: fields.number("first")?,
            cells: fields.number("cells")?,
            swept: read_swept(fields)?,
        })
    }

    fn columns(&self) -> Columns {
        let Self { width, first, cells, .. } = *self;
        Columns::Bins { first, cells, width }
    }

    /// The written runs of a tape, in offset form.
    fn written(tape: &Tape) -> (Vec<u64>, Vec<u64>) {
        let written = model::stretches(tape).into_iter().filter(|stretch| stretch.symbol != 0);
        written.map(|stretch| (offset(stretch.low), offset(stretch.high))).unzip()
    }

    /// The row by the probes' answers alone.
    fn library(&self) -> Result<Vec<u8>, Difference> {
        let (low, high) = Self::written(&self.tape);
        let tallies = ffi::tallies(self.width as usize, self.first, self.cells, &low, &high);
        hold_library(&tallies, &Ok(tallies.output.clone()))?;
        let mut row: Vec<u8> = tallies.output.iter().map(|&tally| ffi::probe_tally_shade(tally, self.cells)).collect();
        if let Some((low, high)) = self.swept {
            let touched = ffi::swept(self.width, self.columns(), offset(low.into()), offset(high.into()));
            for byte in pixels(&mut row, &touched) {
                *byte = if *byte == 0 { 254 } else { *byte };
            }
        }
        let head = ffi::head(self.width, self.columns(), offset(self.tape.head.into()));
        pixels(&mut row, &head).fill(255);
        Ok(row)
    }

    /// The row by the rules, for a tape that may be the one that the original takes this for.
    fn model(&self, tape: &Tape) -> Vec<u8> {
        rows::line(self.columns(), self.width as usize, tape, self.swept)
    }
}

fn offset(position: i128) -> u64 {
    (position + i128::from(ZERO)) as u64
}

/// The pixels that a question found; none where it found nothing.
fn pixels<'a>(row: &'a mut [u8], found: &ffi::Answer<u64>) -> &'a mut [u8] {
    match found.number {
        0 => &mut row[found.output[0] as usize..=found.output[1] as usize],
        _ => &mut [],
    }
}

impl Case for BinRow {
    fn compare(&self) -> Result<Verdict, Difference> {
        let wanted = self.model(&self.tape);
        hold("the library", &self.library()?, &wanted)?;
        let saturated = self.model(&as_the_original_takes_it(&self.tape));
        let bins = Bins::new(self.cells, self.width as u32);
        let first = (self.first ^ ZERO).cast_signed();
        let row = caught(|| bins.values(&original(&self.tape), first, self.swept));
        hold("the original", &row.as_ref(), &Ok(&saturated))?;
        Ok(if saturated == wanted { Verdict::Equal } else { Verdict::Apart })
    }

    fn smaller(&self) -> Vec<Self> {
        let first = (self.first ^ ZERO).cast_signed();
        let tapes = self.tape.smaller(first).into_iter().map(|(tape, first)| Self {
            tape,
            first: first.cast_unsigned() ^ ZERO,
            ..self.clone()
        });
        let widths = smaller_number(self.width).into_iter().map(|width| Self { width, ..self.clone() });
        let cells = smaller_number(self.cells).into_iter().map(|cells| Self { cells, ..self.clone() });
        let unswept = self.swept.map(|_| Self { swept: None, ..self.clone() });
        let sound = |case: &Self| model::refusal(&case.tape) == 0 && case.columns().sound_in(case.width);
        tapes.chain(widths).chain(cells).chain(unswept).filter(sound).collect()
    }
}

impl fmt::Display for BinRow {
    fn fmt(&self, f: &mut fmt::Formatter<'_>) -> fmt::Result {
        let Self { tape, width, first, cells, swept } = self;
        write!(f, "bin_row {tape} width={width} first={first} cells={cells} {}", swept_text(*swept))
    }
}
