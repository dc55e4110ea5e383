//! `spacetime_range` on any record; the fits compare it with the original on the records of fitted pictures.

use std::fmt;

use super::hold_library;
use crate::case::{Case, Difference, Fields, Verdict};
use crate::ffi;
use crate::record::Record;

#[derive(Clone)]
pub struct Range {
    pub record: Record,
}

impl Range {
    pub fn read(fields: &Fields) -> Result<Self, String> {
        Ok(Self { record: Record::read(fields)? })
    }
}

impl Case for Range {
    fn compare(&self) -> Result<Verdict, Difference> {
        hold_library(&ffi::range(&self.record), &self.record.range())?;
        Ok(Verdict::Equal)
    }

    fn smaller(&self) -> Vec<Self> {
        self.record.smaller().into_iter().map(|record| Self { record }).collect()
    }
}

impl fmt::Display for Range {
    fn fmt(&self, f: &mut fmt::Formatter<'_>) -> fmt::Result {
        write!(f, "range {}", self.record)
    }
}
