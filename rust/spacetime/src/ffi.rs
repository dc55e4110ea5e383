//! The library's functions over slices: the one place where it is called.
//!
//! Each call hands over pointers to slices and arrays that are borrowed for as long as the call lasts, each with its own length;
//! the library reads and writes nothing beyond them (proved), and keeps none. What is written is borrowed alone, so it
//! overlaps nothing.

#![allow(unsafe_code, reason = "the one place where the library is called")]

use crate::picture::{Exact, Overview, Pair, Upright};
use crate::refusal::Refusal;
use crate::tape::LentTape;

/// A picture's record, in the words of include/spacetime.h.
pub type Record = [u64; archives::RECORD_WORDS];

/// The memory that a row is drawn in.
pub struct Memory<'a> {
    pub index: &'a mut [u8],
    pub store: &'a mut [u8],
    pub tallies: &'a mut [u64],
}

/// A pair that may be missing, as the library takes it.
fn lent_pair(pair: Option<Pair>) -> (bool, i64, i64) {
    pair.map_or((false, 0, 0), |(low, high)| (true, low, high))
}

pub fn fit_exact(width: u32, height: u32, symbols: u32, order: &Exact) -> Result<Record, Refusal> {
    let mut record = [0; archives::RECORD_WORDS];
    let (has_written, low, high) = lent_pair(order.written);
    // SAFETY: heads is a slice with its length, and the record has its words.
    let number = unsafe {
        archives::spacetime_fit_exact(
            width,
            height,
            symbols,
            order.first_step,
            order.cell_px.is_some(),
            order.cell_px.unwrap_or(0),
            order.heads.as_ptr(),
            order.heads.len(),
            has_written,
            low,
            high,
            order.halted,
            record.as_mut_ptr(),
        )
    };
    Refusal::check(number).map(|()| record)
}

pub fn fit_overview(width: u32, height: u32, symbols: u32, order: &Overview) -> Result<Record, Refusal> {
    let mut record = [0; archives::RECORD_WORDS];
    let (low, high) = order.extent;
    // SAFETY: the record has its words.
    let number = unsafe {
        archives::spacetime_fit_overview(width, height, symbols, order.total, low, high, record.as_mut_ptr())
    };
    Refusal::check(number).map(|()| record)
}

pub fn open(record: &mut Record, index: &mut [u8], store: &mut [u8]) -> Result<(), Refusal> {
    // SAFETY: the record has its words; index and store are slices with their lengths, each borrowed alone.
    let number = unsafe {
        archives::spacetime_open(record.as_mut_ptr(), index.as_mut_ptr(), index.len(), store.as_mut_ptr(), store.len())
    };
    Refusal::check(number)
}

pub fn row(record: &mut Record, memory: Memory, tape: LentTape, swept: Option<Pair>) -> Result<u64, Refusal> {
    let mut units = [0];
    let (has_swept, low, high) = lent_pair(swept);
    // SAFETY: the record has its words and units its one; the rest are slices with their lengths. Record, units and the
    // three of the memory are borrowed alone.
    let number = unsafe {
        archives::spacetime_row(
            record.as_mut_ptr(),
            memory.index.as_mut_ptr(),
            memory.index.len(),
            memory.store.as_mut_ptr(),
            memory.store.len(),
            memory.tallies.as_mut_ptr(),
            memory.tallies.len(),
            tape.head,
            tape.cur,
            tape.left.symbols.as_ptr(),
            tape.left.symbols.len(),
            tape.left.lengths.as_ptr(),
            tape.left.lengths.len(),
            tape.right.symbols.as_ptr(),
            tape.right.symbols.len(),
            tape.right.lengths.as_ptr(),
            tape.right.lengths.len(),
            has_swept,
            low,
            high,
            units.as_mut_ptr(),
        )
    };
    Refusal::check(number).map(|()| units[0])
}

pub fn locate(record: &Record, store: &[u8], x: u32, y: u32) -> Result<([u64; 4], [i64; 2]), Refusal> {
    let (mut found, mut cells) = ([0; 4], [0; 2]);
    // SAFETY: the record has its words, found its four and cells its two; the store is a slice with its length.
    let number = unsafe {
        archives::spacetime_locate(
            record.as_ptr(),
            store.as_ptr(),
            store.len(),
            x,
            y,
            found.as_mut_ptr(),
            cells.as_mut_ptr(),
        )
    };
    Refusal::check(number).map(|()| (found, cells))
}

pub fn row_lines(record: &Record, row: u32) -> Result<[u64; 4], Refusal> {
    let mut found = [0; 4];
    // SAFETY: the record has its words and found its four.
    let number = unsafe { archives::spacetime_row_lines(record.as_ptr(), row, found.as_mut_ptr()) };
    Refusal::check(number).map(|()| found)
}

pub fn range(record: &Record) -> Result<[i64; 2], Refusal> {
    let mut cells = [0; 2];
    // SAFETY: the record has its words and cells its two.
    let number = unsafe { archives::spacetime_range(record.as_ptr(), cells.as_mut_ptr()) };
    Refusal::check(number).map(|()| cells)
}

pub fn upright(
    record: &Record,
    index: &[u8],
    store: &[u8],
    column: u32,
    first_row: u32,
    last_row: u32,
) -> Result<Upright, Refusal> {
    let mut answer = [0];
    // SAFETY: the record has its words and the answer its one; index and store are slices with their lengths.
    let number = unsafe {
        archives::spacetime_upright(
            record.as_ptr(),
            index.as_ptr(),
            index.len(),
            store.as_ptr(),
            store.len(),
            column,
            first_row,
            last_row,
            answer.as_mut_ptr(),
        )
    };
    Refusal::check(number).map(|()| match answer {
        [0] => Upright::No,
        [1] => Upright::Yes,
        _ => Upright::Unknown,
    })
}

/// A picture as it is lent: its record, index and store.
pub type Lent<'a> = (&'a Record, &'a [u8], &'a [u8]);

pub fn equal(a: Lent, b: Lent) -> Result<bool, Refusal> {
    let mut answer = [0];
    // SAFETY: the records have their words and the answer its one; indices and stores are slices with their lengths.
    let number = unsafe {
        archives::spacetime_equal(
            a.0.as_ptr(),
            a.1.as_ptr(),
            a.1.len(),
            a.2.as_ptr(),
            a.2.len(),
            b.0.as_ptr(),
            b.1.as_ptr(),
            b.1.len(),
            b.2.as_ptr(),
            b.2.len(),
            answer.as_mut_ptr(),
        )
    };
    Refusal::check(number).map(|()| answer == [1])
}

/// Writes the drawn rows as text.
pub fn page(record: &Record, index: &[u8], page: &mut [u8]) -> Result<(), Refusal> {
    // SAFETY: the record has its words; index and page are slices with their lengths, the page borrowed alone.
    let number = unsafe {
        archives::spacetime_page(record.as_ptr(), index.as_ptr(), index.len(), page.as_mut_ptr(), page.len())
    };
    Refusal::check(number)
}

pub fn rgba(index: &[u8], palette: &[u8; 9], out: &mut [u8]) -> Result<(), Refusal> {
    // SAFETY: index and out are slices with their lengths, out borrowed alone; the palette has its nine bytes.
    let number =
        unsafe { archives::spacetime_rgba(index.as_ptr(), index.len(), palette.as_ptr(), out.as_mut_ptr(), out.len()) };
    Refusal::check(number)
}

pub fn mix(from: [u8; 3], to: [u8; 3], t: f64) -> [u8; 3] {
    let mut out = [0; 3];
    // SAFETY: each of the three has its three bytes.
    unsafe { archives::spacetime_mix(from.as_ptr(), to.as_ptr(), t, out.as_mut_ptr()) };
    out
}

pub fn get(symbols: u32, tape: LentTape, position: i64) -> Result<u8, Refusal> {
    let mut symbol = [0];
    // SAFETY: the tape's are slices with their lengths, and the symbol is one byte.
    let number = unsafe {
        archives::spacetime_get(
            symbols,
            tape.head,
            tape.cur,
            tape.left.symbols.as_ptr(),
            tape.left.symbols.len(),
            tape.left.lengths.as_ptr(),
            tape.left.lengths.len(),
            tape.right.symbols.as_ptr(),
            tape.right.symbols.len(),
            tape.right.lengths.as_ptr(),
            tape.right.lengths.len(),
            position,
            symbol.as_mut_ptr(),
        )
    };
    Refusal::check(number).map(|()| symbol[0])
}

pub fn window(symbols: u32, tape: LentTape, from: i64, out: &mut [u8]) -> Result<(), Refusal> {
    // SAFETY: the tape's are slices with their lengths, and so is out, borrowed alone.
    let number = unsafe {
        archives::spacetime_window(
            symbols,
            tape.head,
            tape.cur,
            tape.left.symbols.as_ptr(),
            tape.left.symbols.len(),
            tape.left.lengths.as_ptr(),
            tape.left.lengths.len(),
            tape.right.symbols.as_ptr(),
            tape.right.symbols.len(),
            tape.right.lengths.as_ptr(),
            tape.right.lengths.len(),
            from,
            out.as_mut_ptr(),
            out.len(),
        )
    };
    Refusal::check(number)
}

/// Symbols and lengths of a side that is rewritten.
pub struct Written<'a> {
    pub symbols: &'a mut [u8],
    pub lengths: &'a mut [u64],
}

/// How many places came free, left and right.
pub fn join(symbols: u32, head: i64, cur: u8, left: Written, right: Written) -> Result<[u64; 2], Refusal> {
    let mut freed = [0; 2];
    // SAFETY: the sides' are slices with their lengths, each borrowed alone, and freed has its two words.
    let number = unsafe {
        archives::spacetime_join(
            symbols,
            head,
            cur,
            left.symbols.as_mut_ptr(),
            left.symbols.len(),
            left.lengths.as_mut_ptr(),
            left.lengths.len(),
            right.symbols.as_mut_ptr(),
            right.symbols.len(),
            right.lengths.as_mut_ptr(),
            right.lengths.len(),
            freed.as_mut_ptr(),
        )
    };
    Refusal::check(number).map(|()| freed)
}
