//! The archives' functions over slices.

#![allow(unsafe_code, reason = "the one place where the archives are called")]

use archives::{
    probe_tallies, spacetime_fit_exact, spacetime_fit_overview, spacetime_get, spacetime_join, spacetime_locate,
    spacetime_rgba, spacetime_row, spacetime_window,
};
use reference::{Exact, Located, Overview, Pair};

/// A picture's words.
pub type Record = [u64; archives::RECORD_WORDS];

/// The two lists of each side, nearest the head last.
#[derive(Clone)]
pub struct Tape {
    pub symbols: u32,
    pub head: i64,
    pub cur: u8,
    pub left: (Vec<u8>, Vec<u64>),
    pub right: (Vec<u8>, Vec<u64>),
}

impl Tape {
    /// Takes the runs of another tape with as many, in the memory at hand.
    pub fn copy_from(&mut self, other: &Self) {
        for (side, other) in [(&mut self.left, &other.left), (&mut self.right, &other.right)] {
            side.0.copy_from_slice(&other.0);
            side.1.copy_from_slice(&other.1);
        }
    }

    pub fn original(&self) -> reference::Tape {
        let runs = |side: &(Vec<u8>, Vec<u64>)| side.0.iter().copied().zip(side.1.iter().copied()).collect::<Vec<_>>();
        reference::Tape::new(self.head, self.cur, runs(&self.left), runs(&self.right))
    }
}

/// A pair that may be missing, as the library takes it.
fn lent_pair(pair: Option<Pair>) -> (bool, i64, i64) {
    pair.map_or((false, 0, 0), |(low, high)| (true, low, high))
}

/// Clears the tallies and adds the runs, of which there are at most 4096.
pub fn tallies(tallies: &mut [u64], first: u64, cells: u64, low: &[u64], high: &[u64]) -> u32 {
    // SAFETY: each pointer is to a slice of the length beside it, and the one that is written is lent alone.
    unsafe {
        probe_tallies(
            tallies.as_mut_ptr(),
            tallies.len(),
            first,
            cells,
            low.as_ptr(),
            low.len(),
            high.as_ptr(),
            high.len(),
        )
    }
}

pub fn rgba(index: &[u8], palette: &[u8; 9], out: &mut [u8]) -> u32 {
    // SAFETY: as above; the palette has the nine bytes that the function declares.
    unsafe { spacetime_rgba(index.as_ptr(), index.len(), palette.as_ptr(), out.as_mut_ptr(), out.len()) }
}

pub fn get(tape: &Tape, position: i64) -> u8 {
    let mut symbol = [0];
    // SAFETY: as above; the symbol is the one byte that the function declares.
    let number = unsafe {
        spacetime_get(
            tape.symbols,
            tape.head,
            tape.cur,
            tape.left.0.as_ptr(),
            tape.left.0.len(),
            tape.left.1.as_ptr(),
            tape.left.1.len(),
            tape.right.0.as_ptr(),
            tape.right.0.len(),
            tape.right.1.as_ptr(),
            tape.right.1.len(),
            position,
            symbol.as_mut_ptr(),
        )
    };
    assert_eq!(number, 0, "a sound tape");
    symbol[0]
}

/// Joins the runs of a tape, and gives how many places came free left and right.
pub fn join(tape: &mut Tape) -> [u64; 2] {
    let mut freed = [0; 2];
    // SAFETY: as above; each side's slices are borrowed alone, and freed has the two words that the function declares.
    let number = unsafe {
        spacetime_join(
            tape.symbols,
            tape.head,
            tape.cur,
            tape.left.0.as_mut_ptr(),
            tape.left.0.len(),
            tape.left.1.as_mut_ptr(),
            tape.left.1.len(),
            tape.right.0.as_mut_ptr(),
            tape.right.0.len(),
            tape.right.1.as_mut_ptr(),
            tape.right.1.len(),
            freed.as_mut_ptr(),
        )
    };
    assert_eq!(number, 0, "a sound tape");
    freed
}

/// A record and the memory that is lent with it.
pub struct Picture {
    pub record: Record,
    pub index: Vec<u8>,
    pub store: Vec<u8>,
    pub tallies: Vec<u64>,
}

/// The row call's type.
type RowCall = unsafe extern "C" fn(
    *mut u64,
    *mut u8,
    usize,
    *mut u8,
    usize,
    *mut u64,
    usize,
    i64,
    u8,
    *const u8,
    usize,
    *const u64,
    usize,
    *const u8,
    usize,
    *const u64,
    usize,
    bool,
    i64,
    i64,
    *mut u64,
) -> u32;

/// Draws the next row and gives its units.
pub fn row(picture: &mut Picture, tape: &Tape, swept: Option<Pair>) -> u64 {
    row_by(spacetime_row, picture, tape, swept)
}

/// Whether the archive of an earlier version is linked too.
pub const BEFORE: bool = cfg!(before);

/// The same by the earlier version; nothing where it is not linked.
pub fn row_before(picture: &mut Picture, tape: &Tape, swept: Option<Pair>) -> u64 {
    #[cfg(before)]
    {
        unsafe extern "C" {
            fn before_row(
                record: *mut u64,
                index: *mut u8,
                index_count: usize,
                store: *mut u8,
                store_count: usize,
                tallies: *mut u64,
                tallies_count: usize,
                head: i64,
                cur: u8,
                left_symbols: *const u8,
                left_symbols_count: usize,
                left_lengths: *const u64,
                left_lengths_count: usize,
                right_symbols: *const u8,
                right_symbols_count: usize,
                right_lengths: *const u64,
                right_lengths_count: usize,
                has_swept: bool,
                swept_low: i64,
                swept_high: i64,
                units: *mut u64,
            ) -> u32;
        }
        row_by(before_row, picture, tape, swept)
    }
    #[cfg(not(before))]
    {
        let _ = (picture, tape, swept);
        0
    }
}

fn row_by(call: RowCall, picture: &mut Picture, tape: &Tape, swept: Option<Pair>) -> u64 {
    let mut units = [0];
    let (has_swept, low, high) = lent_pair(swept);
    // SAFETY: as above; record and units have the words that the function declares.
    let number = unsafe {
        call(
            picture.record.as_mut_ptr(),
            picture.index.as_mut_ptr(),
            picture.index.len(),
            picture.store.as_mut_ptr(),
            picture.store.len(),
            picture.tallies.as_mut_ptr(),
            picture.tallies.len(),
            tape.head,
            tape.cur,
            tape.left.0.as_ptr(),
            tape.left.0.len(),
            tape.left.1.as_ptr(),
            tape.left.1.len(),
            tape.right.0.as_ptr(),
            tape.right.0.len(),
            tape.right.1.as_ptr(),
            tape.right.1.len(),
            has_swept,
            low,
            high,
            units.as_mut_ptr(),
        )
    };
    assert_eq!(number, 0, "a sound call");
    units[0]
}

pub fn window(tape: &Tape, from: i64, out: &mut [u8]) {
    // SAFETY: as above.
    let number = unsafe {
        spacetime_window(
            tape.symbols,
            tape.head,
            tape.cur,
            tape.left.0.as_ptr(),
            tape.left.0.len(),
            tape.left.1.as_ptr(),
            tape.left.1.len(),
            tape.right.0.as_ptr(),
            tape.right.0.len(),
            tape.right.1.as_ptr(),
            tape.right.1.len(),
            from,
            out.as_mut_ptr(),
            out.len(),
        )
    };
    assert_eq!(number, 0, "a sound tape");
}

/// Writes the words of an exact picture of this side in pixels, with two symbols.
pub fn fit_exact(side: u32, order: &Exact, record: &mut Record) {
    let (has_written, low, high) = lent_pair(order.written);
    // SAFETY: as above; the record has its words.
    let number = unsafe {
        spacetime_fit_exact(
            side,
            side,
            2,
            order.first_step,
            order.cell_px.is_some(),
            order.cell_px.unwrap_or(0),
            order.heads.as_ptr(),
            order.heads.len(),
            has_written,
            low,
            high,
            order.halted,
            record.as_mut_ptr(),
        )
    };
    assert_eq!(number, 0, "a sound order");
}

/// Writes the words of an overview of this side in pixels, with two symbols.
pub fn fit_overview(side: u32, order: &Overview, record: &mut Record) {
    let (low, high) = order.extent;
    // SAFETY: as above; the record has its words.
    let number = unsafe { spacetime_fit_overview(side, side, 2, order.total, low, high, record.as_mut_ptr()) };
    assert_eq!(number, 0, "a sound order");
}

/// What a click answers: whether and which step and symbol, and the cells.
#[derive(Default)]
pub struct Found {
    words: [u64; 4],
    cells: [i64; 2],
}

impl Found {
    pub fn original(&self) -> Option<Located> {
        let ([is_found, step, has_symbol, symbol], [from, to]) = (self.words, self.cells);
        (is_found == 1).then_some(Located { step, from, to, symbol: (has_symbol == 1).then_some(symbol as u8) })
    }
}

/// Writes what a pixel shows.
pub fn locate(picture: &Picture, (x, y): (u32, u32), found: &mut Found) {
    // SAFETY: as above; the record has its words, the answer its four and the cells their two.
    let number = unsafe {
        spacetime_locate(
            picture.record.as_ptr(),
            picture.store.as_ptr(),
            picture.store.len(),
            x,
            y,
            found.words.as_mut_ptr(),
            found.cells.as_mut_ptr(),
        )
    };
    assert_eq!(number, 0, "a sound picture");
}
