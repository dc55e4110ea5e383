//! `spacetime_mix`.

use std::fmt;

use reference::{Rgb, caught};

use super::hold_library;
use crate::case::{Case, Difference, Fields, Verdict, hold, joined};
use crate::colours::mixed;
use crate::ffi;
use crate::tape::smaller_number;

/// The share by its bits, so that each NaN is itself.
#[derive(Clone)]
pub struct Mix {
    pub from: [u8; 3],
    pub to: [u8; 3],
    pub t: u64,
}

impl Mix {
    pub fn read(fields: &Fields) -> Result<Self, String> {
        let colour = |name: &str| {
            let bytes: Vec<u8> = fields.numbers(name)?;
            <[u8; 3]>::try_from(bytes).map_err(|_| format!("{name}: three bytes"))
        };
        Ok(Self { from: colour("from")?, to: colour("to")?, t: fields.number("t")? })
    }
}

impl Case for Mix {
    fn compare(&self) -> Result<Verdict, Difference> {
        let Self { from, to, t } = *self;
        let t = f64::from_bits(t);
        let wanted: [u8; 3] = std::array::from_fn(|at| mixed(from[at], to[at], t));
        hold_library(&ffi::mix(from, to, t), &Ok(wanted.to_vec()))?;
        let rgb = |[red, green, blue]: [u8; 3]| Rgb(red, green, blue);
        hold("the original", &caught(|| rgb(from).mix(rgb(to), t)), &Ok(rgb(wanted)))?;
        Ok(Verdict::Equal)
    }

    fn smaller(&self) -> Vec<Self> {
        let bytes = (0..3).flat_map(|at| {
            let from = smaller_number(u64::from(self.from[at])).into_iter().map(move |byte| {
                let mut less = self.clone();
                less.from[at] = byte as u8;
                less
            });
            let to = smaller_number(u64::from(self.to[at])).into_iter().map(move |byte| {
                let mut less = self.clone();
                less.to[at] = byte as u8;
                less
            });
            from.chain(to)
        });
        bytes.chain(smaller_number(self.t).into_iter().map(|t| Self { t, ..self.clone() })).collect()
    }
}

impl fmt::Display for Mix {
    fn fmt(&self, f: &mut fmt::Formatter<'_>) -> fmt::Result {
        write!(f, "mix from={} to={} t={}", joined(&self.from), joined(&self.to), self.t)
    }
}
