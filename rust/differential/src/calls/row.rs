//! `spacetime_row`, one call on a picture whose memory holds anything.

use std::fmt;

use reference::{Picture, caught};

use super::{as_the_original_takes_it, hold_library, hold_memory, original, original_grid, read_swept, swept_text};
use crate::case::{Case, Difference, Fields, Verdict, hold, hold_list};
use crate::ffi;
use crate::orders::{Pair, smaller_pair};
use crate::record::{DONE, HEIGHT, Record, SYMBOLS, WIDTH};
use crate::rows::Plain;
use crate::tape::{Tape, smaller_number};

/// The alphabet's count is the record's, whatever the tape says.
#[derive(Clone)]
pub struct Row {
    pub record: Record,
    /// How long index, store and tallies are.
    pub index: usize,
    pub store: usize,
    pub tallies: usize,
    pub tape: Tape,
    pub swept: Option<Pair>,
}

impl Row {
    pub fn read(fields: &Fields) -> Result<Self, String> {
        Ok(Self {
            record: Record::read(fields)?,
            index: fields.number("index")?,
            store: fields.number("store")?,
            tallies: fields.number("tallies")?,
            tape: Tape::read(fields)?,
            swept: read_swept(fields)?,
        })
    }

    /// A call on a sound record with memory of the right lengths.
    pub fn on(record: Record, tape: Tape, swept: Option<Pair>) -> Self {
        let tallies = record.tallies_length();
        Self { index: record.index_length(), store: record.store_length(), tallies, record, tape, swept }
    }

    /// The number that the rules answer.
    pub fn refusal(&self) -> u32 {
        self.lent().refusal(&self.tape(), self.swept)
    }

    /// What is lent. No two places near each other hold the same, so that a byte that is moved shows.
    fn lent(&self) -> Plain {
        let bytes = |length: usize| (0..length).map(|place| (place * 151 + 17) as u8).collect();
        let words = (0..self.tallies as u64).map(|place| (place + 1).wrapping_mul(0x9e37_79b9_7f4a_7c15));
        Plain { record: self.record, index: bytes(self.index), store: bytes(self.store), tallies: words.collect() }
    }

    fn tape(&self) -> Tape {
        Tape { symbols: self.record.0[SYMBOLS] as u32, ..self.tape.clone() }
    }

    /// The picture that the original has after the row. It leaves the margins as they are, so it is handed the row's lines
    /// as opening leaves them.
    fn original(&self, tape: &Tape) -> Picture {
        let mut lent = self.lent();
        let band = lent.band();
        lent.index[band].fill(0);
        let words = &self.record.0;
        let size = (words[WIDTH] as u32, words[HEIGHT] as u32, words[SYMBOLS] as u32);
        let mut picture =
            Picture::of_grid(size, &original_grid(&self.record), words[DONE] as u32, &lent.index, &lent.store);
        picture.draw(&original(tape), self.swept);
        picture
    }
}

impl Case for Row {
    fn compare(&self) -> Result<Verdict, Difference> {
        let tape = self.tape();
        let mut plain = self.lent();
        let mut lending = ffi::Lending::new(&plain.record, &plain.index, &plain.store, &plain.tallies);
        let units = plain.row(&tape, self.swept);
        let answer = lending.row(&tape, self.swept);
        hold_library(&answer, &units.map(|units| vec![units]))?;
        hold_memory(&lending, &plain)?;
        if units.is_err() {
            return Ok(Verdict::Equal);
        }
        let mut saturated = self.lent();
        let taken = saturated.row(&as_the_original_takes_it(&tape), self.swept);
        hold("the model of the original, refusal", &taken.err(), &None)?;
        let picture = caught(|| self.original(&tape)).map_err(|how| Difference(format!("the original has {how:?}")))?;
        hold_list("the original's index", picture.index(), &saturated.index)?;
        hold_list("the original's store", picture.store(), &saturated.store)?;
        let equal = saturated.index == plain.index && saturated.store == plain.store;
        Ok(if equal { Verdict::Equal } else { Verdict::Apart })
    }

    fn smaller(&self) -> Vec<Self> {
        let records = self.record.smaller().into_iter().map(|record| {
            let sized = record.sound() && record.index_length() < 1 << 24;
            if sized { Self::on(record, self.tape.clone(), self.swept) } else { Self { record, ..self.clone() } }
        });
        let less = |length: usize| smaller_number(length as u64).into_iter().map(|length| length as usize);
        let indices = less(self.index).map(|index| Self { index, ..self.clone() });
        let stores = less(self.store).map(|store| Self { store, ..self.clone() });
        let tallies = less(self.tallies).map(|tallies| Self { tallies, ..self.clone() });
        let tapes = self.tape.smaller(0).into_iter().map(|(tape, _)| Self { tape, ..self.clone() });
        let pairs = self.swept.into_iter().flat_map(|pair| {
            let pairs = smaller_pair(pair).into_iter().map(Some);
            [None].into_iter().chain(pairs)
        });
        let pairs = pairs.map(|swept| Self { swept, ..self.clone() });
        records.chain(indices).chain(stores).chain(tallies).chain(tapes).chain(pairs).collect()
    }

    fn pixels(&self) -> u64 {
        if self.refusal() == 0 { self.lent().band().len() as u64 } else { 0 }
    }
}

impl fmt::Display for Row {
    fn fmt(&self, f: &mut fmt::Formatter<'_>) -> fmt::Result {
        let Self { record, index, store, tallies, tape, swept } = self;
        write!(f, "row {record} index={index} store={store} tallies={tallies} {tape} {}", swept_text(*swept))
    }
}
