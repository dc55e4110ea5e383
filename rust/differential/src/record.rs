//! The record of a picture as the C interface has it, sound or not, and the rules on it (RULES, Fit and Refusals), plainly.

use std::fmt;

use crate::case::{Fields, joined};
use crate::columns::{Columns, MOST_PIXELS, ZERO};
use crate::tape::smaller_number;

pub use archives::RECORD_WORDS as WORDS;

/// The most symbols of an alphabet.
pub const MOST_SYMBOLS: u64 = 64;

// What the words are.
pub const WIDTH: usize = 0;
pub const HEIGHT: usize = 1;
pub const SYMBOLS: usize = 2;
pub const EXACT: usize = 3;
pub const BINS: usize = 4;
pub const FIRST: usize = 5;
pub const CELLS: usize = 6;
pub const PX: usize = 7;
pub const MARGIN: usize = 8;
pub const ROW_HEIGHT: usize = 9;
pub const ROWS: usize = 10;
pub const FIRST_STEP: usize = 11;
pub const STRIDE: usize = 12;
pub const LAST_STEP: usize = 13;
pub const DONE: usize = 14;
pub const LEFT: usize = 15;
pub const RIGHT: usize = 16;

/// The most cells that a tape has within ±L.
pub const MOST_ON_TAPE: u64 = (1 << 63) + 1;

/// What locating a pixel writes.
pub type Located = ([u64; 4], [i64; 2]);

/// A picture as it is lent: record, index and store.
pub type Picture<'a> = (&'a Record, &'a [u8], &'a [u8]);

#[derive(Copy, Clone, Debug, PartialEq, Eq)]
pub struct Record(pub [u64; WORDS]);

impl Record {
    pub fn read(fields: &Fields) -> Result<Self, String> {
        let words: Vec<u64> = fields.numbers("record")?;
        words.try_into().map(Self).map_err(|words: Vec<u64>| format!("a record of {} words", words.len()))
    }

    pub fn with(mut self, word: usize, value: u64) -> Self {
        self.0[word] = value;
        self
    }

    /// With no rows done.
    pub fn restarted(self) -> Self {
        [DONE, LEFT, RIGHT].into_iter().fold(self, |record, word| record.with(word, 0))
    }

    pub fn smaller(&self) -> Vec<Self> {
        let words = (0..WORDS).flat_map(|word| smaller_number(self.0[word]).into_iter().map(move |less| (word, less)));
        words.map(|(word, less)| self.with(word, less)).collect()
    }

    /// Whether it is anything but refusal 15.
    pub fn sound(&self) -> bool {
        let word = |word: usize| self.0[word];
        let lines = u128::from(word(ROWS)) * u128::from(word(ROW_HEIGHT));
        (1..=MOST_PIXELS).contains(&word(WIDTH))
            && (1..=MOST_PIXELS).contains(&word(HEIGHT))
            && (1..=MOST_SYMBOLS).contains(&word(SYMBOLS))
            && word(EXACT) <= 1
            && [STRIDE, ROW_HEIGHT, ROWS].iter().all(|&at| word(at) >= 1)
            && lines <= u128::from(word(HEIGHT))
            && word(DONE) <= word(ROWS)
            && [LEFT, RIGHT].iter().all(|&at| word(at) <= MOST_ON_TAPE)
            && self.columns().is_some_and(|columns| columns.sound_in(word(WIDTH)))
    }

    /// Nothing where its words stand for no columns.
    pub fn columns(&self) -> Option<Columns> {
        let [width, _, _, _, bins, first, cells, px, x0, ..] = self.0;
        match (bins, px, x0) {
            (0, _, _) => Some(Columns::Cells { first, count: cells, px, x0 }),
            (1, 0, 0) => Some(Columns::Bins { first, cells, width }),
            _ => None,
        }
    }

    /// How long the index of a sound one is.
    pub fn index_length(&self) -> usize {
        self.0[WIDTH] as usize * self.0[HEIGHT] as usize
    }

    /// How long the symbol store of a sound one is.
    pub fn store_length(&self) -> usize {
        if self.0[BINS] == 1 { 0 } else { self.0[ROWS] as usize * self.0[CELLS] as usize }
    }

    /// How many tallies a row of a sound one has.
    pub fn tallies_length(&self) -> usize {
        if self.0[BINS] == 1 { self.0[WIDTH] as usize } else { 0 }
    }

    /// What asking for a row answers: 1 or 0, step, first line, line past the last.
    pub fn row_lines(&self, row: u32) -> Result<Vec<u64>, u32> {
        if !self.sound() {
            return Err(15);
        }
        let row = u64::from(row);
        if row >= self.0[ROWS] {
            return Ok(vec![0; 4]);
        }
        Ok(vec![1, self.step(row), row * self.0[ROW_HEIGHT], (row + 1) * self.0[ROW_HEIGHT]])
    }

    fn step(&self, row: u64) -> u64 {
        let reached = u128::from(self.0[FIRST_STEP]) + u128::from(self.0[STRIDE]) * u128::from(row);
        reached.min(u128::from(self.0[LAST_STEP])) as u64
    }

    /// What asking for the range answers.
    pub fn range(&self) -> Result<Vec<i64>, u32> {
        if !self.sound() {
            return Err(15);
        }
        let first = i128::from(self.0[FIRST]) - i128::from(ZERO);
        let last = first + i128::from(self.0[CELLS]) - 1;
        Ok(vec![first as i64, last as i64])
    }

    /// What locating a pixel answers: 1 or 0, step, 1 where it has a symbol, symbol; then from and to.
    pub fn locate(&self, store: &[u8], x: u32, y: u32) -> Result<Located, u32> {
        if !self.sound() {
            return Err(15);
        }
        if store.len() != self.store_length() {
            return Err(8);
        }
        Ok(self.shown(store, x, y).unwrap_or(([0; 4], [0; 2])))
    }

    /// What a pixel of a sound one shows.
    fn shown(&self, store: &[u8], x: u32, y: u32) -> Option<Located> {
        let (height, line) = (self.0[ROW_HEIGHT], u64::from(y));
        let row = (0..self.0[DONE]).find(|row| (row * height..(row + 1) * height).contains(&line))?;
        let (from, to) = self.columns()?.located(x.into())?;
        let place = row * self.0[CELLS] + (from - self.0[FIRST]);
        let symbol = (self.0[BINS] == 0).then(|| store[place as usize]);
        let found = [1, self.step(row), symbol.is_some().into(), symbol.map_or(0, u64::from)];
        Some((found, [from, to].map(|position| (position ^ ZERO).cast_signed())))
    }

    /// What asking whether a column is upright answers: 1 yes, 0 no, 2 unknown.
    pub fn upright(&self, index: &[u8], store: &[u8], column: u32, first_row: u32, last_row: u32) -> Result<u64, u32> {
        let number = self.opening(index.len(), store.len());
        if number != 0 {
            return Err(number);
        }
        let [column, first, last] = [column, first_row, last_row].map(u64::from);
        if column >= self.0[WIDTH] || first > last || last >= self.0[DONE] {
            return Err(16);
        }
        let lines = first * self.0[ROW_HEIGHT]..(last + 1) * self.0[ROW_HEIGHT];
        let says = lines.map(|line| match index[(line * self.0[WIDTH] + column) as usize] {
            1..=64 => Some(true),
            255 => self.is_written(store, column, line / self.0[ROW_HEIGHT]),
            _ => Some(false),
        });
        let says: Vec<Option<bool>> = says.collect();
        Ok(if says.contains(&Some(false)) { 0 } else { 1 + u64::from(says.contains(&None)) })
    }

    /// Whether the stored symbol of a column in a row is written: in a margin it is not, and in bins nobody knows.
    fn is_written(&self, store: &[u8], column: u64, row: u64) -> Option<bool> {
        let [bins, cells, px, margin] = [BINS, CELLS, PX, MARGIN].map(|word| self.0[word]);
        if bins == 1 {
            return None;
        }
        let is_cell = (margin..margin + cells * px).contains(&column);
        Some(is_cell && store[(row * cells + (column - margin) / px) as usize] != 0)
    }

    /// What asking whether two pictures are equal answers, each by its record, index and store.
    pub fn equal(first: Picture, second: Picture) -> Result<u64, u32> {
        let refusal = |(record, index, store): Picture| record.opening(index.len(), store.len());
        if let Some(number) = [first, second].map(refusal).into_iter().find(|&number| number != 0) {
            return Err(number);
        }
        let (a, b) = (first.0, second.0);
        let sizes = [WIDTH, HEIGHT, DONE].iter().all(|&word| a.0[word] == b.0[word]);
        if !sizes || first.1 != second.1 || a.range() != b.range() {
            return Ok(0);
        }
        let is_same = |row| a.step(row) == b.step(row) && a.symbols(first.2, row) == b.symbols(second.2, row);
        Ok((0..a.0[DONE]).all(is_same).into())
    }

    /// The page of the rows done, each line made as text is.
    pub fn page(&self, index: &[u8], length: usize) -> Result<Vec<u8>, u32> {
        self.index_refusal(index)?;
        let (width, done) = (self.0[WIDTH] as usize, self.0[DONE]);
        if width > 59 {
            return Err(17);
        }
        if length as u128 != u128::from(done) * 81 {
            return Err(18);
        }
        let lines = (0..done).map(|row| {
            let from = (row * self.0[ROW_HEIGHT]) as usize * width;
            let pixels: String = index[from..from + width].iter().map(|&byte| page_character(byte)).collect();
            format!("{:<80}\n", format!("{:>20} {pixels}", self.step(row)))
        });
        Ok(lines.collect::<String>().into_bytes())
    }

    /// 15 and 7.
    fn index_refusal(&self, index: &[u8]) -> Result<(), u32> {
        if !self.sound() {
            return Err(15);
        }
        if index.len() == self.index_length() { Ok(()) } else { Err(7) }
    }

    /// The symbols stored for a row; none in bins.
    fn symbols<'a>(&self, store: &'a [u8], row: u64) -> &'a [u8] {
        let cells = if self.0[BINS] == 1 { 0 } else { self.0[CELLS] };
        &store[(row * cells) as usize..][..cells as usize]
    }

    /// What opening answers, of an index and a store of these lengths.
    pub fn opening(&self, index: usize, store: usize) -> u32 {
        if !self.sound() {
            15
        } else if index != self.index_length() {
            7
        } else if store != self.store_length() {
            8
        } else {
            0
        }
    }
}

fn page_character(byte: u8) -> char {
    match byte {
        0 => '.',
        1..=16 => '1',
        17..=32 => '2',
        33..=48 => '3',
        49..=253 => '4',
        254 => '-',
        255 => '@',
    }
}

impl fmt::Display for Record {
    fn fmt(&self, f: &mut fmt::Formatter<'_>) -> fmt::Result {
        write!(f, "record={}", joined(&self.0))
    }
}
