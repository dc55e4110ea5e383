//! `spacetime_row_lines` on any record; the fits compare it with the original on the records of fitted pictures.

use std::fmt;

use super::hold_library;
use crate::case::{Case, Difference, Fields, Verdict};
use crate::ffi;
use crate::record::Record;
use crate::tape::smaller_number;

#[derive(Clone)]
pub struct RowLines {
    pub record: Record,
    pub row: u32,
}

impl RowLines {
    pub fn read(fields: &Fields) -> Result<Self, String> {
        Ok(Self { record: Record::read(fields)?, row: fields.number("row")? })
    }
}

impl Case for RowLines {
    fn compare(&self) -> Result<Verdict, Difference> {
        let Self { record, row } = self;
        hold_library(&ffi::row_lines(record, *row), &record.row_lines(*row))?;
        Ok(Verdict::Equal)
    }

    fn smaller(&self) -> Vec<Self> {
        let records = self.record.smaller().into_iter().map(|record| Self { record, ..self.clone() });
        let rows = smaller_number(u64::from(self.row)).into_iter();
        records.chain(rows.map(|row| Self { row: row as u32, ..self.clone() })).collect()
    }
}

impl fmt::Display for RowLines {
    fn fmt(&self, f: &mut fmt::Formatter<'_>) -> fmt::Result {
        write!(f, "row_lines {} row={}", self.record, self.row)
    }
}
