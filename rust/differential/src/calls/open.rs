//! `spacetime_open`.

use std::fmt;

use crate::case::{Case, Difference, Fields, Verdict, hold};
use crate::ffi::{self, Guarded, Opened};
use crate::record::Record;
use crate::tape::smaller_number;

#[derive(Clone)]
pub struct Open {
    pub record: Record,
    /// How long the index is, and how long the store.
    pub index: usize,
    pub store: usize,
}

impl Open {
    pub fn read(fields: &Fields) -> Result<Self, String> {
        Ok(Self { record: Record::read(fields)?, index: fields.number("index")?, store: fields.number("store")? })
    }
}

impl Case for Open {
    fn compare(&self) -> Result<Verdict, Difference> {
        let Self { record, index, store } = self;
        let number = record.opening(*index, *store);
        let (record_after, byte) = if number == 0 { (record.restarted(), 0) } else { (*record, u8::UNWRITTEN) };
        let filled = |length: usize| if length == 0 { Vec::new() } else { vec![byte] };
        let wanted = Opened {
            number,
            record: record_after.0.to_vec(),
            index: filled(*index),
            store: filled(*store),
            disturbed: Vec::new(),
        };
        hold("the library", &ffi::open(record, *index, *store), &wanted)?;
        Ok(Verdict::Equal)
    }

    fn smaller(&self) -> Vec<Self> {
        let records = self.record.smaller().into_iter().map(|record| Self { record, ..self.clone() });
        let less = |length: usize| smaller_number(length as u64).into_iter().map(|length| length as usize);
        let indices = less(self.index).map(|index| Self { index, ..self.clone() });
        let stores = less(self.store).map(|store| Self { store, ..self.clone() });
        records.chain(indices).chain(stores).collect()
    }
}

impl fmt::Display for Open {
    fn fmt(&self, f: &mut fmt::Formatter<'_>) -> fmt::Result {
        write!(f, "open {} index={} store={}", self.record, self.index, self.store)
    }
}
