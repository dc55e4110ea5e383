//! `spacetime_window`.

use std::fmt;

use reference::caught;

use super::{as_the_original_takes_it, hold_library, original};
use crate::case::{Case, Difference, Fields, Verdict, hold};
use crate::tape::{Tape, smaller_number};
use crate::{ffi, model};

#[derive(Clone)]
pub struct Window {
    pub tape: Tape,
    pub from: i64,
    pub length: usize,
}

impl Window {
    pub fn read(fields: &Fields) -> Result<Self, String> {
        Ok(Self { tape: Tape::read(fields)?, from: fields.number("from")?, length: fields.number("length")? })
    }
}

impl Case for Window {
    fn compare(&self) -> Result<Verdict, Difference> {
        let Self { tape, from, length } = self;
        let wanted = model::window(tape, *from, *length);
        let answer = ffi::window(tape, *from, *length);
        hold_library(&answer, &wanted)?;
        let Ok(wanted) = wanted else {
            return Ok(Verdict::Equal);
        };
        let saturated = model::read(&as_the_original_takes_it(tape), *from, *length);
        let answer = caught(|| original(tape).window(*from, *length));
        hold("the original", &answer.as_ref(), &Ok(&saturated))?;
        Ok(if saturated == wanted { Verdict::Equal } else { Verdict::Apart })
    }

    fn smaller(&self) -> Vec<Self> {
        let smaller = self.tape.smaller(self.from).into_iter();
        let smaller = smaller.map(|(tape, from)| Self { tape, from, ..self.clone() });
        let lengths = smaller_number(self.length as u64).into_iter();
        smaller.chain(lengths.map(|length| Self { length: length as usize, ..self.clone() })).collect()
    }
}

impl fmt::Display for Window {
    fn fmt(&self, f: &mut fmt::Formatter<'_>) -> fmt::Result {
        write!(f, "window {} from={} length={}", self.tape, self.from, self.length)
    }
}
