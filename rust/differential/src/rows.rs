//! The rules on rows (RULES, Rows), plainly: the picture that row calls draw, byte by byte, with its checks in their order.

use crate::columns::{Columns, ZERO, overlaps};
use crate::model::{self, stretches};
use crate::orders::Pair;
use crate::record::{DONE, EXACT, LEFT, RIGHT, ROW_HEIGHT, ROWS, Record, SYMBOLS, WIDTH};
use crate::tape::{L, Tape};

/// The index bytes of paper that was swept, and of the head.
pub const SWEPT: u8 = 254;
pub const HEAD: u8 = 255;

/// A record and the memory that is lent with it.
#[derive(Clone, Debug, PartialEq, Eq)]
pub struct Plain {
    pub record: Record,
    pub index: Vec<u8>,
    pub store: Vec<u8>,
    pub tallies: Vec<u64>,
}

impl Plain {
    /// An opened picture, whose tallies hold anything.
    pub fn opened(record: &Record, tallies: Vec<u64>) -> Self {
        let (index, store) = (vec![0; record.index_length()], vec![0; record.store_length()]);
        Self { record: *record, index, store, tallies }
    }

    /// Draws the next row and answers its units, or a refusal's number.
    pub fn row(&mut self, tape: &Tape, swept: Option<Pair>) -> Result<u64, u32> {
        let number = self.refusal(tape, swept);
        if number != 0 {
            return Err(number);
        }
        let columns = self.record.columns().expect("a sound record has columns");
        let band = self.band();
        let width = self.record.0[WIDTH] as usize;
        let line = line(columns, width, tape, swept);
        self.index[band].chunks_exact_mut(width).for_each(|pixels| pixels.copy_from_slice(&line));
        let units = match columns {
            Columns::Cells { first, count, .. } => {
                let symbols = model::read(tape, (first ^ ZERO).cast_signed(), count as usize);
                let from = (self.record.0[DONE] * count) as usize;
                self.store[from..from + symbols.len()].copy_from_slice(&symbols);
                symbols.iter().filter(|&&symbol| symbol != 0).count() as u64
            }
            Columns::Bins { .. } => {
                self.tallies = tallies(columns, tape).into_iter().map(|tally| tally as u64).collect();
                self.tallies.iter().sum()
            }
        };
        (self.record.0[LEFT], self.record.0[RIGHT]) = left_out(columns, tape);
        self.record.0[DONE] += 1;
        Ok(units)
    }

    /// The places of the next row's lines in the index.
    pub fn band(&self) -> std::ops::Range<usize> {
        let words = &self.record.0;
        let bytes = (words[ROW_HEIGHT] * words[WIDTH]) as usize;
        let from = words[DONE] as usize * bytes;
        from..from + bytes
    }

    /// The number of the first check that fails; 0 where none does.
    pub fn refusal(&self, tape: &Tape, swept: Option<Pair>) -> u32 {
        refusal(&self.record, [self.index.len(), self.store.len(), self.tallies.len()], tape, swept)
    }
}

/// The number of the first check that a row call fails, of 15, 14, 7, 8, 9, 11, 19, 12 and 13; 0 where none does. The
/// lengths are those of index, store and tallies.
pub fn refusal(record: &Record, lengths: [usize; 3], tape: &Tape, swept: Option<Pair>) -> u32 {
    let words = &record.0;
    if !record.sound() {
        return 15;
    }
    if words[DONE] == words[ROWS] {
        return 14;
    }
    let [index, store, tallies] = lengths;
    if index != record.index_length() {
        return 7;
    }
    if store != record.store_length() {
        return 8;
    }
    if tallies != record.tallies_length() {
        return 9;
    }
    let number = model::row_refusal(&Tape { symbols: words[SYMBOLS] as u32, ..tape.clone() });
    if number != 0 {
        return number;
    }
    let domain = -L..=L;
    let taken = |(low, high)| words[EXACT] == 0 && low <= high && domain.contains(&low) && domain.contains(&high);
    if swept.is_none_or(taken) { 0 } else { 13 }
}

/// The bytes of a row's first line, and so of all its lines, from a sound tape.
pub fn line(columns: Columns, width: usize, tape: &Tape, swept: Option<Pair>) -> Vec<u8> {
    let mut line = match columns {
        Columns::Cells { first, count, px, x0 } => {
            let mut line = vec![0; width];
            let symbols = model::read(tape, (first ^ ZERO).cast_signed(), count as usize);
            let most = f64::from(tape.symbols.saturating_sub(1).max(1));
            for (k, symbol) in symbols.into_iter().enumerate() {
                let from = x0 as usize + k * px as usize;
                line[from..from + px as usize].fill(shade(symbol != 0, f64::from(symbol) / most));
            }
            line
        }
        Columns::Bins { cells, .. } => {
            tallies(columns, tape).into_iter().map(|tally| shade(tally != 0, tally as f64 / cells as f64)).collect()
        }
    };
    if let Some((from, to)) = swept.and_then(|(low, high)| columns.swept(offset(low), offset(high))) {
        line[from as usize..=to as usize].iter_mut().filter(|byte| **byte == 0).for_each(|byte| *byte = SWEPT);
    }
    if let Some((from, to)) = columns.head(offset(tape.head)) {
        line[from as usize..=to as usize].fill(HEAD);
    }
    line
}

/// Each bin's overlaps with the written cells of its window.
fn tallies(columns: Columns, tape: &Tape) -> Vec<u128> {
    let (_, _, cells, width, _) = columns.numbers();
    let mut tallies = vec![0; width as usize];
    for stretch in stretches(tape).into_iter().filter(|stretch| stretch.symbol != 0) {
        let [low, high] = [stretch.low, stretch.high].map(|position| offset(position as i64));
        if let Some(run) = columns.clipped(low, high) {
            let overlaps = overlaps(tallies.len(), cells, run);
            tallies.iter_mut().zip(overlaps).for_each(|(tally, overlap)| *tally += overlap);
        }
    }
    tallies
}

/// How many written cells lie left of the window, and how many right of it.
pub fn left_out(columns: Columns, tape: &Tape) -> (u64, u64) {
    let (_, first, cells, _, _) = columns.numbers();
    let first = i128::from(first) - i128::from(ZERO);
    let past = first + i128::from(cells);
    let written = || stretches(tape).into_iter().filter(|stretch| stretch.symbol != 0);
    let left: i128 = written().map(|stretch| ((stretch.high + 1).min(first) - stretch.low).max(0)).sum();
    let right: i128 = written().map(|stretch| (stretch.high + 1 - stretch.low.max(past)).max(0)).sum();
    (left as u64, right as u64)
}

pub fn shade(written: bool, share: f64) -> u8 {
    if written { 8 + (share * 56.0).round() as u8 } else { 0 }
}

fn offset(position: i64) -> u64 {
    position.cast_unsigned() ^ ZERO
}
