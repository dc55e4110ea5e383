//! `spacetime_join`.

use std::fmt;

use reference::{Stack, caught};

use crate::case::{Case, Difference, Fields, Verdict, hold};
use crate::ffi::{self, Guarded, Joined};
use crate::model;
use crate::tape::{Side, Tape};

#[derive(Clone)]
pub struct Join {
    pub tape: Tape,
}

impl Join {
    pub fn read(fields: &Fields) -> Result<Self, String> {
        Ok(Self { tape: Tape::read(fields)? })
    }
}

impl Case for Join {
    fn compare(&self) -> Result<Verdict, Difference> {
        let Self { tape } = self;
        let found = ffi::join(tape);
        let number = model::refusal(tape);
        if number != 0 {
            let (left, right) = (tape.left.clone(), tape.right.clone());
            let kept = Joined { number, left, right, freed: vec![u64::UNWRITTEN; 2], disturbed: Vec::new() };
            hold("the library", &found, &kept)?;
            return Ok(Verdict::Equal);
        }
        let sides = [&tape.left, &tape.right];
        let [left, right] = sides.map(model::joined);
        for (side, joined) in sides.into_iter().zip([&left, &right]) {
            hold("the original", &caught(|| pushed(side)), &Ok(joined.clone()))?;
        }
        hold("the library", &found, &accepted(tape, &left, &right))?;
        let remaining = Tape { left: left.clone(), right: right.clone(), ..tape.clone() };
        hold("the library, joining again", &ffi::join(&remaining), &accepted(&remaining, &left, &right))?;
        Ok(Verdict::Equal)
    }

    fn smaller(&self) -> Vec<Self> {
        let smaller = self.tape.smaller(0).into_iter();
        smaller.map(|(tape, _)| Self { tape }).filter(|less| less.tape != self.tape).collect()
    }
}

/// What an accepted call leaves of a tape whose sides join to these.
fn accepted(tape: &Tape, left: &Side, right: &Side) -> Joined {
    let freed = [(&tape.left, left), (&tape.right, right)].map(|(old, new)| old.lengths.len() - new.lengths.len());
    Joined {
        number: 0,
        left: followed(left, freed[0]),
        right: followed(right, freed[1]),
        freed: freed.map(|places| places as u64).to_vec(),
        disturbed: Vec::new(),
    }
}

/// A side with places after its runs that hold symbol 0 and length 0.
fn followed(side: &Side, places: usize) -> Side {
    let mut side = side.clone();
    side.symbols.extend(vec![0; places]);
    side.lengths.extend(vec![0; places]);
    side
}

/// The side's runs pushed by the original, one by one from the outermost on.
fn pushed(side: &Side) -> Side {
    let mut stack = Stack::default();
    stack.push_all(&side.symbols, &side.lengths);
    Side::new(&stack.runs().collect::<Vec<_>>())
}

impl fmt::Display for Join {
    fn fmt(&self, f: &mut fmt::Formatter<'_>) -> fmt::Result {
        write!(f, "join {}", self.tape)
    }
}
