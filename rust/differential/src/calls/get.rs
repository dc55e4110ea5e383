//! `spacetime_get`.

use std::fmt;

use reference::caught;

use super::{hold_library, original};
use crate::case::{Case, Difference, Fields, Verdict, hold};
use crate::tape::Tape;
use crate::{ffi, model};

#[derive(Clone)]
pub struct Get {
    pub tape: Tape,
    pub position: i64,
}

impl Get {
    pub fn read(fields: &Fields) -> Result<Self, String> {
        Ok(Self { tape: Tape::read(fields)?, position: fields.number("position")? })
    }
}

impl Case for Get {
    fn compare(&self) -> Result<Verdict, Difference> {
        let wanted = model::get(&self.tape, self.position);
        let answer = ffi::get(&self.tape, self.position);
        hold_library(&answer, &wanted.map(|symbol| vec![symbol]))?;
        if let Ok(symbol) = wanted {
            let answer = caught(|| original(&self.tape).get(self.position));
            hold("the original", &answer, &Ok(symbol))?;
        }
        Ok(Verdict::Equal)
    }

    fn smaller(&self) -> Vec<Self> {
        let smaller = self.tape.smaller(self.position).into_iter();
        smaller.map(|(tape, position)| Self { tape, position }).collect()
    }
}

impl fmt::Display for Get {
    fn fmt(&self, f: &mut fmt::Formatter<'_>) -> fmt::Result {
        write!(f, "get {} position={}", self.tape, self.position)
    }
}
