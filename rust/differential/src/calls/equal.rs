//! `spacetime_equal`. The original does not compare pictures, so the model alone judges it.

use std::fmt;

use super::hold_library;
use super::upright::smaller_index;
use crate::case::{Case, Difference, Fields, Verdict, joined};
use crate::ffi;
use crate::record::{Picture, Record};

/// A picture as it is lent.
#[derive(Clone)]
pub struct Lent {
    pub record: Record,
    pub index: Vec<u8>,
    pub store: Vec<u8>,
}

#[derive(Clone)]
pub struct Equal {
    pub first: Lent,
    pub second: Lent,
}

impl Lent {
    fn read(fields: &Fields) -> Result<Self, String> {
        Ok(Self { record: Record::read(fields)?, index: fields.numbers("index")?, store: fields.numbers("store")? })
    }

    fn smaller(&self) -> Vec<Self> {
        let records = self.record.smaller().into_iter().map(|record| Self { record, ..self.clone() });
        let indices = smaller_index(&self.index).into_iter().map(|index| Self { index, ..self.clone() });
        let stores = smaller_index(&self.store).into_iter().map(|store| Self { store, ..self.clone() });
        records.chain(indices).chain(stores).collect()
    }

    fn parts(&self) -> Picture<'_> {
        (&self.record, &self.index, &self.store)
    }
}

impl Equal {
    pub fn read(fields: &Fields) -> Result<Self, String> {
        let second = fields.parts.first().ok_or("an equality needs a second picture")?;
        Ok(Self { first: Lent::read(fields)?, second: Lent::read(second)? })
    }
}

impl Case for Equal {
    fn compare(&self) -> Result<Verdict, Difference> {
        let (first, second) = (self.first.parts(), self.second.parts());
        let wanted = Record::equal(first, second);
        hold_library(&ffi::equal(first, second), &wanted.map(|answer| vec![answer]))?;
        Ok(Verdict::Equal)
    }

    fn smaller(&self) -> Vec<Self> {
        let firsts = self.first.smaller().into_iter().map(|first| Self { first, ..self.clone() });
        let seconds = self.second.smaller().into_iter().map(|second| Self { second, ..self.clone() });
        firsts.chain(seconds).collect()
    }
}

impl fmt::Display for Lent {
    fn fmt(&self, f: &mut fmt::Formatter<'_>) -> fmt::Result {
        let Self { record, index, store } = self;
        write!(f, "{record} index={} store={}", joined(index), joined(store))
    }
}

impl fmt::Display for Equal {
    fn fmt(&self, f: &mut fmt::Formatter<'_>) -> fmt::Result {
        write!(f, "equal {}; and {}", self.first, self.second)
    }
}
