//! `spacetime_page`. The original prints no pages, so the model alone judges it.

use std::fmt;

use super::hold_library;
use super::upright::smaller_index;
use crate::case::{Case, Difference, Fields, Verdict, joined};
use crate::ffi;
use crate::record::Record;
use crate::tape::smaller_number;

#[derive(Clone)]
pub struct Page {
    pub record: Record,
    pub index: Vec<u8>,
    pub length: usize,
}

impl Page {
    pub fn read(fields: &Fields) -> Result<Self, String> {
        Ok(Self { record: Record::read(fields)?, index: fields.numbers("index")?, length: fields.number("length")? })
    }
}

impl Case for Page {
    fn compare(&self) -> Result<Verdict, Difference> {
        let Self { record, index, length } = self;
        hold_library(&ffi::page(record, index, *length), &record.page(index, *length))?;
        Ok(Verdict::Equal)
    }

    fn smaller(&self) -> Vec<Self> {
        let records = self.record.smaller().into_iter().map(|record| Self { record, ..self.clone() });
        let indices = smaller_index(&self.index).into_iter().map(|index| Self { index, ..self.clone() });
        let lengths = smaller_number(self.length as u64).into_iter();
        let lengths = lengths.map(|length| Self { length: length as usize, ..self.clone() });
        records.chain(indices).chain(lengths).collect()
    }
}

impl fmt::Display for Page {
    fn fmt(&self, f: &mut fmt::Formatter<'_>) -> fmt::Result {
        let Self { record, index, length } = self;
        write!(f, "page {record} index={} length={length}", joined(index))
    }
}
