//! A list of row calls on one picture, refused ones among them, by the rules (RULES, Lists of calls).

use std::fmt;

use super::click::clicked;
use super::picture::Picture;
use super::{Fit, hold_library, read_swept, swept_text};
use crate::case::{Case, Difference, Fields, Verdict, hold, hold_list, joined};
use crate::ffi::{Clicking, Lending};
use crate::orders::Pair;
use crate::plain::PlainPicture;
use crate::record::{HEIGHT, Record, WIDTH};
use crate::tape::Tape;

/// A row call. The alphabet's count is that of the record, whatever the tape says.
#[derive(Clone)]
pub struct Call {
    pub tape: Tape,
    pub swept: Option<Pair>,
    /// Another record than the picture's.
    pub record: Option<Record>,
    /// How much longer index, store and tallies are handed than the picture has them; below 0, how much shorter.
    pub longer: [i64; 3],
}

#[derive(Clone)]
pub struct CallList {
    pub fit: Fit,
    pub calls: Vec<Call>,
}

impl Call {
    fn read(fields: &Fields) -> Result<Self, String> {
        let words: Vec<u64> = fields.numbers("record")?;
        let record = if words.is_empty() { None } else { Some(Record::read(fields)?) };
        let longer: Vec<i64> = fields.numbers("longer")?;
        let longer = longer.try_into().map_err(|_| "longer is three numbers".to_string())?;
        Ok(Self { tape: Tape::read(fields)?, swept: read_swept(fields)?, record, longer })
    }

    /// The lengths that are handed.
    pub fn lengths(&self, plain: &PlainPicture) -> [usize; 3] {
        let [index, store, tallies] = plain.lengths();
        let handed = |length: usize, longer: i64| length.saturating_add_signed(longer as isize);
        let [a, b, c] = self.longer;
        [handed(index, a), handed(store, b), handed(tallies, c)]
    }

    /// What the rules answer: 0 or a refusal's number.
    pub fn refusal(&self, plain: &PlainPicture) -> u32 {
        plain.refusal(self.record.as_ref(), self.lengths(plain), &self.tape, self.swept)
    }

    /// Whether it is handed the picture's own record and memory, as an accepted call is.
    pub fn own(&self) -> bool {
        self.record.is_none() && self.longer == [0; 3]
    }

    /// Draws the row, where the call is accepted.
    pub fn draw(&self, plain: &mut PlainPicture) -> Result<u64, u32> {
        match self.refusal(plain) {
            0 => Ok(plain.draw(&self.tape, self.swept)),
            number => Err(number),
        }
    }

    fn smaller(&self) -> Vec<Self> {
        let mut calls = Vec::new();
        if self.record.is_some() {
            calls.push(Self { record: None, ..self.clone() });
        }
        for at in (0..3).filter(|&at| self.longer[at] != 0) {
            let mut less = self.clone();
            less.longer[at] = 0;
            calls.push(less);
        }
        if self.swept.is_some() {
            calls.push(Self { swept: None, ..self.clone() });
        }
        calls.extend(self.tape.smaller(0).into_iter().map(|(tape, _)| Self { tape, ..self.clone() }));
        calls
    }
}

impl CallList {
    pub fn read(fields: &Fields) -> Result<Self, String> {
        let (fit, calls) = fields.parts.split_first().ok_or("a list of calls needs a fit")?;
        Ok(Self { fit: Fit::read(fit)?, calls: calls.iter().map(Call::read).collect::<Result<_, _>>()? })
    }
}

/// Holds the memory of a picture, all of it, and what every pixel and those around locate to.
fn hold_plain(lending: &Lending, plain: &PlainPicture) -> Result<(), Difference> {
    let record = plain.record();
    hold_list("the library's record", lending.record(), &record.0)?;
    hold_list("the library's index", lending.index(), &plain.index)?;
    hold_list("the library's store", lending.store(), &plain.store)?;
    hold_list("the library's tallies", lending.tallies(), &plain.tallies)?;
    let around = |pixels: u64| (0..=pixels as u32 + 1).chain([u32::MAX]);
    let mut clicking = Clicking::new(&record, lending.store());
    for y in around(record.0[HEIGHT]) {
        for x in around(record.0[WIDTH]) {
            hold("the library's location", &clicking.click(x, y), &clicked(plain.locate(x, y)))?;
        }
    }
    hold("the library, of what it reads,", &clicking.disturbed(), &Vec::new())
}

impl Case for CallList {
    fn compare(&self) -> Result<Verdict, Difference> {
        let fitted = self.fit.model();
        hold_library(&self.fit.library(), &fitted.map(|record| record.0.to_vec()))?;
        let Ok(record) = fitted else {
            return Ok(Verdict::Equal);
        };
        let mut lending = Picture::lent(&record);
        hold_library(&lending.open(), &Ok(Vec::new()))?;
        let mut plain = PlainPicture::opened(&record, lending.tallies().to_vec());
        hold_plain(&lending, &plain)?;
        for call in &self.calls {
            // A list hands its accepted calls what is the picture's; what comes after any other is none of its business.
            if !call.own() && call.refusal(&plain) == 0 {
                break;
            }
            let lengths = call.lengths(&plain);
            let units = call.draw(&mut plain);
            let answer = lending.row_handed(call.record.as_ref(), lengths, &call.tape, call.swept);
            hold_library(&answer, &units.map(|units| vec![units]))?;
            hold_plain(&lending, &plain)?;
        }
        Ok(Verdict::Equal)
    }

    fn smaller(&self) -> Vec<Self> {
        let mut lists = Vec::new();
        for at in 0..self.calls.len() {
            let mut less = self.clone();
            less.calls.remove(at);
            lists.push(less);
        }
        lists.extend(self.fit.smaller().into_iter().map(|fit| Self { fit, calls: self.calls.clone() }));
        for (at, call) in self.calls.iter().enumerate() {
            lists.extend(call.smaller().into_iter().map(|call| {
                let mut less = self.clone();
                less.calls[at] = call;
                less
            }));
        }
        lists
    }
}

impl fmt::Display for CallList {
    fn fmt(&self, f: &mut fmt::Formatter<'_>) -> fmt::Result {
        write!(f, "call_list; {}", self.fit)?;
        self.calls.iter().try_for_each(|Call { tape, swept, record, longer }| {
            let record = record.map_or("record=".to_string(), |record| record.to_string());
            write!(f, "; call {record} longer={} {tape} {}", joined(longer), swept_text(*swept))
        })
    }
}
