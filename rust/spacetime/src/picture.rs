//! A picture: its record, and the memory that the library draws in.

use std::ops::{Range, RangeInclusive};

use crate::ffi::{self, Record};
use crate::tape::{LentTape, Split};
use crate::{Palette, Refusal, Tape, colours, word};

pub use archives::RECORD_WORDS;

/// Two positions, low first.
pub type Pair = (i64, i64);

/// What an exact picture is fitted to: row r shows step `first_step` + r.
#[derive(Clone, Debug)]
pub struct Exact<'a> {
    /// The step of the first row.
    pub first_step: u64,
    /// The size of a cell in pixels; without one the largest that fits is taken.
    pub cell_px: Option<u32>,
    /// The head's position in each row, at most [`Exact::row_limit`] of them.
    pub heads: &'a [i64],
    /// The outermost written cells at the first row.
    pub written: Option<Pair>,
    /// Whether the machine has halted at the last head.
    pub halted: bool,
}

impl Exact<'_> {
    /// How many heads a fit takes: the rows that a picture of this size has room for, at the cell size if one is given, which is
    /// held to 1..=min(`width`, `height`).
    ///
    /// ```
    /// use spacetime::Exact;
    ///
    /// assert_eq!(Exact::row_limit(640, 480, None), 480);
    /// assert_eq!(Exact::row_limit(640, 480, Some(7)), 68);
    /// ```
    pub fn row_limit(width: u32, height: u32, cell_px: Option<u32>) -> usize {
        let size = cell_px.map_or(1, |px| px.min(width.min(height)).max(1));
        usize::try_from(height / size).expect("32 bits")
    }
}

/// What an overview is fitted to: a whole run.
#[derive(Copy, Clone, Debug)]
pub struct Overview {
    /// The steps of the run.
    pub total: u64,
    /// The cells that are shown: those that the run visited, or others.
    pub extent: Pair,
}

/// What a pixel shows.
#[derive(Copy, Clone, Debug, PartialEq, Eq)]
pub struct CellRef {
    /// The step of the row.
    pub step: u64,
    /// The first cell.
    pub from: i64,
    /// The last cell.
    pub to: i64,
    /// The symbol, where the column is a single cell.
    pub symbol: Option<u8>,
}

/// Whether a column is upright over some rows. Each of its pixels there says yes, no or unknown: ink says yes; paper, swept and
/// spare say no; a head says, in cells, yes exactly if the symbol stored for its cell is written, in a margin no, in bins unknown.
#[derive(Copy, Clone, Debug, PartialEq, Eq)]
pub enum Upright {
    /// All of them say yes.
    Yes,
    /// Some pixel says no.
    No,
    /// No pixel says no, and some say unknown.
    Unknown,
}

/// A fitted picture, drawn as far as rows were handed to it. Two are equal if their widths, heights and index bytes are, both
/// ends of the window, the number of rows drawn, the step of each of these rows and, in cells, each symbol stored for them.
///
/// ```
/// use spacetime::{Overview, Picture, Tape, Upright};
///
/// let mut picture = Picture::overview(4, 3, 2, &Overview { total: 5, extent: (0, 9) })?;
/// assert_eq!((0..3).map(|row| picture.row(row).unwrap().0).collect::<Vec<_>>(), [0, 3, 5]);
///
/// // Cell 2 is written, and lies half in each of the first two bins.
/// let units = picture.draw_row(&Tape { head: 2, cur: 1, ..Tape::default() }, None)?;
/// assert_eq!((units, picture.tallies()), (4, &[2, 2, 0, 0][..]));
/// assert_eq!(picture.index_buffer()[..4], [19, 255, 0, 0]);
/// assert_eq!(picture.locate(1, 0).map(|cell| (cell.from, cell.to)), Some((2, 4)));
/// assert_eq!(picture.locate(1, 1), None);
/// assert_eq!(picture.upright(0, 0..=0), Ok(Upright::Yes));
/// assert_eq!(picture.upright(1, 0..=0), Ok(Upright::Unknown), "the head's bin");
/// # Ok::<(), spacetime::Refusal>(())
/// ```
#[derive(Clone, Debug)]
pub struct Picture {
    record: Record,
    index: Vec<u8>,
    store: Vec<u8>,
    tallies: Vec<u64>,
    runs: Split,
}

/// Why no call on a picture's own record and memory is refused for them.
const OWN: &str = "a picture keeps the record of its fit, and memory of the record's lengths";

impl Picture {
    /// Fits an exact picture and opens it. `symbols` is the alphabet's count.
    ///
    /// Refusals: [`Refusal::Size`], [`Refusal::Symbols`], [`Refusal::Position`], [`Refusal::Reversed`], [`Refusal::Heads`],
    /// [`Refusal::Cells`].
    pub fn exact(width: u32, height: u32, symbols: u32, order: &Exact) -> Result<Self, Refusal> {
        ffi::fit_exact(width, height, symbols, order).map(Self::opened)
    }

    /// Fits an overview and opens it. `symbols` is the alphabet's count.
    ///
    /// Refusals: [`Refusal::Size`], [`Refusal::Symbols`], [`Refusal::Position`], [`Refusal::Reversed`], [`Refusal::Cells`].
    pub fn overview(width: u32, height: u32, symbols: u32, order: &Overview) -> Result<Self, Refusal> {
        ffi::fit_overview(width, height, symbols, order).map(Self::opened)
    }

    /// Gives an accepted fit the memory that it asks for.
    fn opened(record: Record) -> Self {
        let mut picture = Self {
            index: vec![0; length(record[word::WIDTH] * record[word::HEIGHT])],
            store: vec![0; length(if is_bins(&record) { 0 } else { record[word::ROWS] * record[word::CELLS] })],
            tallies: tallies(&record),
            runs: Split::default(),
            record,
        };
        picture.open();
        picture
    }

    /// The picture whose record, index and store these are, as [`Picture::record`], [`Picture::index_buffer`] and
    /// [`Picture::store`] gave them. That the three belong together is the caller's to know.
    ///
    /// Refusals: [`Refusal::Record`], [`Refusal::IndexLength`], [`Refusal::StoreLength`].
    pub fn from_parts(record: [u64; RECORD_WORDS], index: Vec<u8>, store: Vec<u8>) -> Result<Self, Refusal> {
        let lent = (&record, &index[..], &store[..]);
        ffi::equal(lent, lent)?;
        Ok(Self { index, store, tallies: tallies(&record), runs: Split::default(), record })
    }

    /// Makes it a picture with no row drawn again.
    pub fn open(&mut self) {
        ffi::open(&mut self.record, &mut self.index, &mut self.store).expect(OWN);
    }

    /// Draws the next row from a tape and, in an overview, the cells that the head visited since the row before. Answers the
    /// row's units: the written cells of the window, in bins times the width.
    ///
    /// Each side of the tape has to be joined: neighbouring runs differ in symbol, and the outermost run is not blank. A tape
    /// that is not comes from a broken importer; [`Tape::join`] joins it.
    ///
    /// Refusals: [`Refusal::Complete`], [`Refusal::Runs`], [`Refusal::Unjoined`], [`Refusal::Reach`], [`Refusal::Swept`].
    pub fn draw_row(&mut self, tape: &Tape, swept: Option<Pair>) -> Result<u64, Refusal> {
        self.runs.fill(tape);
        let memory = ffi::Memory { index: &mut self.index, store: &mut self.store, tallies: &mut self.tallies };
        ffi::row(&mut self.record, memory, self.runs.lend(tape), swept)
    }

    /// [`Picture::draw_row`] from a tape that is lent, whose runs are not copied. It has to be joined too.
    pub fn draw_lent_row(&mut self, tape: LentTape, swept: Option<Pair>) -> Result<u64, Refusal> {
        let memory = ffi::Memory { index: &mut self.index, store: &mut self.store, tallies: &mut self.tallies };
        ffi::row(&mut self.record, memory, tape, swept)
    }

    /// What pixel (x, y) shows; nothing below the rows drawn and beside the window.
    pub fn locate(&self, x: u32, y: u32) -> Option<CellRef> {
        let (found, [from, to]) = ffi::locate(&self.record, &self.store, x, y).expect(OWN);
        let [is_found, step, has_symbol, symbol] = found;
        let symbol = u8::try_from(symbol).ok().filter(|_| has_symbol == 1);
        (is_found == 1).then_some(CellRef { step, from, to, symbol })
    }

    /// The step of a row and the pixel lines that it fills; nothing from [`Picture::rows`] on.
    pub fn row(&self, row: u32) -> Option<(u64, Range<u32>)> {
        let [is_found, step, first, past] = ffi::row_lines(&self.record, row).expect(OWN);
        (is_found == 1).then(|| (step, pixels(first)..pixels(past)))
    }

    /// The positions shown from the left edge to the right one.
    pub fn tape_range(&self) -> RangeInclusive<i64> {
        let [first, last] = ffi::range(&self.record).expect(OWN);
        first..=last
    }

    /// Whether a column is upright over these rows. Refusal: [`Refusal::Upright`].
    pub fn upright(&self, column: u32, rows: RangeInclusive<u32>) -> Result<Upright, Refusal> {
        ffi::upright(&self.record, &self.index, &self.store, column, *rows.start(), *rows.end())
    }

    /// The drawn rows as text, a line of 80 characters and a line feed each: the step in 20 places, a space, and a character for
    /// each pixel of the row's first line. Paper is `.`, inks are `1` to `4` and spares `4`, swept paper is `-` and the head `@`.
    /// Refusal: [`Refusal::PageWidth`].
    ///
    /// ```
    /// use spacetime::{Exact, Picture, Run, Tape};
    ///
    /// let order = Exact { first_step: 99, cell_px: Some(2), heads: &[0], written: None, halted: false };
    /// let mut picture = Picture::exact(8, 4, 2, &order)?;
    /// picture.draw_row(&Tape { cur: 1, right: vec![Run { symbol: 1, len: 1 }], ..Tape::default() }, None)?;
    /// assert_eq!(picture.page()?.trim_end(), "                  99 ..@@44..");
    /// # Ok::<(), spacetime::Refusal>(())
    /// ```
    pub fn page(&self) -> Result<String, Refusal> {
        let mut page = vec![0; 81 * length(self.record[word::DONE])];
        ffi::page(&self.record, &self.index, &mut page)?;
        Ok(String::from_utf8(page).expect("each byte is a character of ASCII"))
    }

    /// Red, green, blue and 255 for each pixel.
    pub fn rgba(&self, palette: &Palette) -> Vec<u8> {
        let mut out = vec![0; 4 * self.index.len()];
        colours::rgba(&self.index, palette, &mut out).expect("four bytes for each pixel");
        out
    }

    /// One byte a pixel, line by line; see [`crate::index`].
    pub fn index_buffer(&self) -> &[u8] {
        &self.index
    }

    /// The tallies of the row drawn last, one a bin; none in cells.
    pub fn tallies(&self) -> &[u64] {
        &self.tallies
    }

    /// The symbols of the window's cells, row by row; none in bins.
    pub fn store(&self) -> &[u8] {
        &self.store
    }

    /// The record; see [`crate::word`].
    pub fn record(&self) -> &[u64; RECORD_WORDS] {
        &self.record
    }

    /// The width in pixels.
    pub fn width(&self) -> u32 {
        pixels(self.record[word::WIDTH])
    }

    /// The height in pixels.
    pub fn height(&self) -> u32 {
        pixels(self.record[word::HEIGHT])
    }

    /// The rows that the picture has room for.
    pub fn rows(&self) -> u32 {
        pixels(self.record[word::ROWS])
    }

    /// The pixel lines of a row.
    pub fn row_height(&self) -> u32 {
        pixels(self.record[word::ROW_PX])
    }

    /// The size of a cell in pixels; nothing in bins.
    pub fn cell_px(&self) -> Option<u32> {
        (!is_bins(&self.record)).then(|| pixels(self.record[word::CELL_PX]))
    }

    /// The rows drawn.
    pub fn rows_done(&self) -> u32 {
        pixels(self.record[word::DONE])
    }

    /// How many written cells the tape of the row drawn last has left of the window, where the picture does not show them.
    ///
    /// ```
    /// use spacetime::{Exact, Picture, Run, Tape};
    ///
    /// let order = Exact { first_step: 0, cell_px: Some(2), heads: &[0], written: None, halted: false };
    /// let mut picture = Picture::exact(8, 2, 2, &order)?;
    /// assert_eq!(picture.tape_range(), -1..=2);
    /// let ones = |len| vec![Run { symbol: 1, len }];
    /// let units = picture.draw_row(&Tape { head: 0, cur: 1, left: ones(5), right: ones(9) }, None)?;
    /// assert_eq!((picture.written_left(), units, picture.written_right()), (4, 4, 7));
    /// # Ok::<(), spacetime::Refusal>(())
    /// ```
    pub fn written_left(&self) -> u64 {
        self.record[word::LEFT]
    }

    /// The same right of the window.
    pub fn written_right(&self) -> u64 {
        self.record[word::RIGHT]
    }

    fn lent(&self) -> ffi::Lent<'_> {
        (&self.record, &self.index, &self.store)
    }
}

impl PartialEq for Picture {
    fn eq(&self, other: &Self) -> bool {
        ffi::equal(self.lent(), other.lent()).expect(OWN)
    }
}

impl Eq for Picture {}

fn is_bins(record: &Record) -> bool {
    record[word::BINS] == 1
}

/// The tallies of a sound record: one a bin, and none in cells.
fn tallies(record: &Record) -> Vec<u64> {
    vec![0; length(if is_bins(record) { record[word::WIDTH] } else { 0 })]
}

fn length(word: u64) -> usize {
    usize::try_from(word).expect("at most 4096 × 4096")
}

fn pixels(word: u64) -> u32 {
    u32::try_from(word).expect("at most 4096")
}
