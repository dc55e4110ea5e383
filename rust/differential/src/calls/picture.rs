//! A whole picture: a fit, an opening and a list of row calls on the memory that they leave.

use std::fmt;

use reference::{Exact, Overview, caught};

use super::{
    FitExact, FitOverview, as_the_original_takes_it, hold_library, hold_memory, original, read_swept, swept_text,
};
use crate::case::{Case, Difference, Fields, Verdict, hold_list};
use crate::ffi::{self, Guarded, Lending};
use crate::orders::{ExactOrder, Frame, OverviewOrder, Pair};
use crate::record::{DONE, Record};
use crate::rows::Plain;
use crate::tape::Tape;

#[derive(Clone)]
pub enum Fit {
    Exact(FitExact),
    Overview(FitOverview),
}

/// What a row is drawn from. The alphabet's count is the frame's, whatever the tape says.
#[derive(Clone)]
pub struct Source {
    pub tape: Tape,
    pub swept: Option<Pair>,
}

#[derive(Clone)]
pub struct Picture {
    pub fit: Fit,
    pub rows: Vec<Source>,
}

impl Fit {
    pub fn read(fields: &Fields) -> Result<Self, String> {
        match fields.call {
            "fit_exact" => Ok(Self::Exact(FitExact::read(fields)?)),
            "fit_overview" => Ok(Self::Overview(FitOverview::read(fields)?)),
            other => Err(format!("{other}: no fit")),
        }
    }

    fn frame(&self) -> Frame {
        match self {
            Self::Exact(fit) => fit.frame,
            Self::Overview(fit) => fit.frame,
        }
    }

    /// The record by the rules.
    pub fn model(&self) -> Result<Record, u32> {
        match self {
            Self::Exact(fit) => fit.order.fit(fit.frame),
            Self::Overview(fit) => fit.order.fit(fit.frame),
        }
    }

    pub fn library(&self) -> ffi::Answer<u64> {
        match self {
            Self::Exact(fit) => ffi::fit_exact(fit.frame, &fit.order),
            Self::Overview(fit) => ffi::fit_overview(fit.frame, fit.order),
        }
    }

    /// The original's picture, of a fit that is taken.
    fn original(&self) -> reference::Picture {
        let Frame { width, height, symbols } = self.frame();
        let picture = match self {
            Self::Exact(FitExact { order: ExactOrder { first_step, size, heads, written, halted }, .. }) => {
                let order =
                    Exact { first_step: *first_step, cell_px: *size, heads, written: *written, halted: *halted };
                reference::Picture::exact(width, height, symbols, &order)
            }
            Self::Overview(FitOverview { order: OverviewOrder { total, extent }, .. }) => {
                reference::Picture::overview(width, height, symbols, &Overview { total: *total, extent: *extent })
            }
        };
        picture.expect("a size that is taken")
    }

    pub fn smaller(&self) -> Vec<Self> {
        match self {
            Self::Exact(fit) => fit.smaller().into_iter().map(Self::Exact).collect(),
            Self::Overview(fit) => fit.smaller().into_iter().map(Self::Overview).collect(),
        }
    }
}

impl Picture {
    pub fn read(fields: &Fields) -> Result<Self, String> {
        let (fit, rows) = fields.parts.split_first().ok_or("a picture needs a fit")?;
        let source = |row: &Fields| Ok(Source { tape: Tape::read(row)?, swept: read_swept(row)? });
        Ok(Self { fit: Fit::read(fit)?, rows: rows.iter().map(source).collect::<Result<_, String>>()? })
    }

    /// What is lent to a picture's calls, not 0 before it is opened.
    pub fn lent(record: &Record) -> Lending {
        let unwritten = |length: usize| vec![u8::UNWRITTEN; length];
        let tallies = vec![u64::UNWRITTEN; record.tallies_length()];
        Lending::new(record, &unwritten(record.index_length()), &unwritten(record.store_length()), &tallies)
    }

    /// Opens the picture by the library.
    fn opened(record: &Record) -> Result<(Lending, Plain), Difference> {
        let mut lending = Self::lent(record);
        hold_library(&lending.open(), &Ok(Vec::new()))?;
        let plain = Plain::opened(record, lending.tallies().to_vec());
        hold_memory(&lending, &plain)?;
        Ok((lending, plain))
    }
}

impl Case for Picture {
    fn compare(&self) -> Result<Verdict, Difference> {
        let fitted = self.fit.model();
        hold_library(&self.fit.library(), &fitted.map(|record| record.0.to_vec()))?;
        let Ok(record) = fitted else {
            return Ok(Verdict::Equal);
        };
        let panicked = |how| Difference(format!("the original has {how:?}"));
        let (mut lending, mut plain) = Self::opened(&record)?;
        let mut picture = caught(|| self.fit.original()).map_err(panicked)?;
        // The picture as the original draws it, once a tape is not what it takes it for.
        let mut saturated: Option<Plain> = None;
        for Source { tape, swept } in &self.rows {
            let tape = Tape { symbols: self.fit.frame().symbols, ..tape.clone() };
            let taken = as_the_original_takes_it(&tape);
            if taken != tape && saturated.is_none() {
                saturated = Some(plain.clone());
            }
            let units = plain.row(&tape, *swept);
            hold_library(&lending.row(&tape, *swept), &units.map(|units| vec![units]))?;
            hold_memory(&lending, &plain)?;
            if units.is_ok() {
                caught(|| picture.draw(&original(&tape), *swept)).map_err(panicked)?;
                if let Some(saturated) = &mut saturated {
                    saturated.row(&taken, *swept).expect("a tape that is no longer");
                }
            }
            let theirs = saturated.as_ref().unwrap_or(&plain);
            hold_list("the original's index", picture.index(), &theirs.index)?;
            hold_list("the original's store", picture.store(), &theirs.store)?;
        }
        let apart = saturated.is_some_and(|saturated| saturated != plain);
        Ok(if apart { Verdict::Apart } else { Verdict::Equal })
    }

    fn smaller(&self) -> Vec<Self> {
        let mut pictures = Vec::new();
        for at in 0..self.rows.len() {
            let mut less = self.clone();
            less.rows.remove(at);
            pictures.push(less);
        }
        pictures.extend(self.fit.smaller().into_iter().map(|fit| Self { fit, rows: self.rows.clone() }));
        for (at, Source { tape, swept }) in self.rows.iter().enumerate() {
            let with = |source: Source| {
                let mut less = self.clone();
                less.rows[at] = source;
                less
            };
            if swept.is_some() {
                pictures.push(with(Source { tape: tape.clone(), swept: None }));
            }
            let tapes = tape.smaller(0).into_iter();
            pictures.extend(tapes.map(|(tape, _)| with(Source { tape, swept: *swept })));
        }
        pictures
    }

    fn pixels(&self) -> u64 {
        let Ok(record) = self.fit.model() else {
            return 0;
        };
        let mut plain = Plain::opened(&record, vec![0; record.tallies_length()]);
        let mut pixels = 0;
        for Source { tape, swept } in &self.rows {
            if plain.refusal(tape, *swept) == 0 {
                pixels += plain.band().len() as u64;
                plain.record.0[DONE] += 1;
            }
        }
        pixels
    }
}

impl fmt::Display for Fit {
    fn fmt(&self, f: &mut fmt::Formatter<'_>) -> fmt::Result {
        match self {
            Self::Exact(fit) => fit.fmt(f),
            Self::Overview(fit) => fit.fmt(f),
        }
    }
}

impl fmt::Display for Picture {
    fn fmt(&self, f: &mut fmt::Formatter<'_>) -> fmt::Result {
        write!(f, "picture; {}", self.fit)?;
        self.rows.iter().try_for_each(|Source { tape, swept }| write!(f, "; row {tape} {}", swept_text(*swept)))
    }
}
