//! `spacetime_upright`. The original has no such question, so the model alone judges it.

use std::fmt;

use super::hold_library;
use crate::case::{Case, Difference, Fields, Verdict, joined};
use crate::ffi;
use crate::record::Record;
use crate::tape::smaller_number;

#[derive(Clone)]
pub struct Upright {
    pub record: Record,
    pub index: Vec<u8>,
    pub store: Vec<u8>,
    pub column: u32,
    pub first_row: u32,
    pub last_row: u32,
}

impl Upright {
    pub fn read(fields: &Fields) -> Result<Self, String> {
        Ok(Self {
            record: Record::read(fields)?,
            index: fields.numbers("index")?,
            store: fields.numbers("store")?,
            column: fields.number("column")?,
            first_row: fields.number("first_row")?,
            last_row: fields.number("last_row")?,
        })
    }
}

impl Case for Upright {
    fn compare(&self) -> Result<Verdict, Difference> {
        let Self { record, index, store, column, first_row, last_row } = self;
        let wanted = record.upright(index, store, *column, *first_row, *last_row);
        let answer = ffi::upright(record, index, store, *column, *first_row, *last_row);
        hold_library(&answer, &wanted.map(|answer| vec![answer]))?;
        Ok(Verdict::Equal)
    }

    fn smaller(&self) -> Vec<Self> {
        let records = self.record.smaller().into_iter().map(|record| Self { record, ..self.clone() });
        let indices = smaller_index(&self.index).into_iter().map(|index| Self { index, ..self.clone() });
        let stores = smaller_index(&self.store).into_iter().map(|store| Self { store, ..self.clone() });
        let less = |number: u32| smaller_number(number.into()).into_iter().map(|number| number as u32);
        let columns = less(self.column).map(|column| Self { column, ..self.clone() });
        let firsts = less(self.first_row).map(|first_row| Self { first_row, ..self.clone() });
        let lasts = less(self.last_row).map(|last_row| Self { last_row, ..self.clone() });
        records.chain(indices).chain(stores).chain(columns).chain(firsts).chain(lasts).collect()
    }
}

/// Index or store less its last byte, and with one byte lower.
pub fn smaller_index(index: &[u8]) -> Vec<Vec<u8>> {
    let shorter = index.split_last().map(|(_, rest)| rest.to_vec());
    let lower =
        (0..index.len()).flat_map(|at| smaller_number(index[at].into()).into_iter().map(move |less| (at, less)));
    let lower = lower.map(|(at, less)| {
        let mut index = index.to_vec();
        index[at] = less as u8;
        index
    });
    shorter.into_iter().chain(lower).collect()
}

impl fmt::Display for Upright {
    fn fmt(&self, f: &mut fmt::Formatter<'_>) -> fmt::Result {
        let Self { record, index, store, column, first_row, last_row } = self;
        let [index, store] = [index, store].map(|bytes| joined(bytes));
        write!(
            f,
            "upright {record} index={index} store={store} column={column} first_row={first_row} last_row={last_row}"
        )
    }
}
