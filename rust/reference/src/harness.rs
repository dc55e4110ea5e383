//! The child module of the original's spacetime.rs (build.rs declares it there), through which its private functions
//! are reached. Each function here is one call of the original between conversions.

#![warn(unused, clippy::all)]

use std::hint::black_box;

use super::{Bins as Cut, CellRef, Columns as Across, Grid as Fitted, SpaceTime, SpaceTimeMode, SpaceTimeRequest};
use crate::Tape;
use crate::alphabet::Alphabet;
use crate::machine::{Action, Decoder, Kind, Machine};
use crate::palette::{Palette, Rgb};
use crate::symbol::{Dir, State, Symbol};

/// Two positions, low first.
pub type Pair = (i64, i64);

/// How pixel columns map to tape cells; the names are the original's.
#[derive(Copy, Clone, Debug, PartialEq, Eq)]
pub enum Columns {
    Cells { first: i64, count: u32, px: u32, x0: u32 },
    Bins { first: i64, cells: u64, width: u32 },
}

/// How pixels map to steps and tape cells; the names are the original's.
#[derive(Copy, Clone, Debug, PartialEq, Eq)]
pub struct Grid {
    pub columns: Columns,
    pub row_px: u32,
    pub rows: u32,
    pub first: u64,
    pub stride: u64,
    pub last: u64,
    pub sweeps: bool,
}

/// What a pixel locates to.
#[derive(Copy, Clone, Debug, PartialEq, Eq)]
pub struct Located {
    pub step: u64,
    pub from: i64,
    pub to: i64,
    pub symbol: Option<u8>,
}

/// The step of a row, and the pixel lines that it fills.
pub type RowLines = (u64, std::ops::Range<u32>);

/// What an exact picture is fitted to.
#[derive(Clone, Debug)]
pub struct Exact<'a> {
    pub first_step: u64,
    pub cell_px: Option<u32>,
    pub heads: &'a [i64],
    pub written: Option<Pair>,
    pub halted: bool,
}

/// What an overview is fitted to.
#[derive(Copy, Clone, Debug)]
pub struct Overview {
    pub total: u64,
    pub extent: Pair,
}

/// A transition: what is written, whether the head moves right, and the next state.
pub type Transition = (u8, bool, u16);

/// A fitted picture. Its rows are drawn from tapes that are handed in, but for `of_machine`.
#[derive(Debug)]
pub struct Picture(SpaceTime);

impl Picture {
    /// Nothing where the original refuses the size.
    pub fn exact(width: u32, height: u32, symbols: u32, order: &Exact) -> Option<Self> {
        let mode = SpaceTimeMode::Exact { first_step: order.first_step, cell_px: order.cell_px };
        let mut picture = blank(width, height, symbols, mode)?;
        picture.grid = Some(picture.exact_grid(order.heads, order.written, order.halted));
        picture.start_drawing();
        Some(Self(picture))
    }

    /// Nothing where the original refuses the size.
    pub fn overview(width: u32, height: u32, symbols: u32, order: &Overview) -> Option<Self> {
        let mode = SpaceTimeMode::Overview { max_steps: order.total };
        let mut picture = blank(width, height, symbols, mode)?;
        picture.grid = Some(picture.overview_grid(order.total, order.extent));
        picture.start_drawing();
        Some(Self(picture))
    }

    /// An exact picture with no memory to draw in, for its grid alone. The size is one that the original takes.
    pub fn exact_undrawn(width: u32, height: u32, symbols: u32, order: &Exact) -> Self {
        let mode = SpaceTimeMode::Exact { first_step: order.first_step, cell_px: order.cell_px };
        let mut picture = undrawn(width, height, symbols, mode);
        picture.grid = Some(picture.exact_grid(order.heads, order.written, order.halted));
        Self(picture)
    }

    /// An overview with no memory to draw in, for its grid alone. The size is one that the original takes.
    pub fn overview_undrawn(width: u32, height: u32, symbols: u32, order: &Overview) -> Self {
        let mode = SpaceTimeMode::Overview { max_steps: order.total };
        let mut picture = undrawn(width, height, symbols, mode);
        picture.grid = Some(picture.overview_grid(order.total, order.extent));
        Self(picture)
    }

    /// Finds the grid of an exact picture again, and drops it: the original's `exact_grid` and nothing else, to be timed.
    pub fn refit_exact(&self, order: &Exact) {
        black_box(&self.0.exact_grid(order.heads, order.written, order.halted));
    }

    /// Finds the grid of an overview again, and drops it: the original's `overview_grid` and nothing else, to be timed.
    pub fn refit_overview(&self, order: &Overview) {
        black_box(&self.0.overview_grid(order.total, order.extent));
    }

    /// A picture with any grid, rows done and contents of its memory.
    pub fn of_grid(size: (u32, u32, u32), grid: &Grid, rows_done: u32, index: &[u8], store: &[u8]) -> Self {
        let (width, height, symbols) = size;
        let mut picture = undrawn(width, height, symbols, SpaceTimeMode::Overview { max_steps: 0 });
        picture.grid = Some(fitted(grid));
        picture.progress.rows_done = rows_done;
        picture.index = index.to_vec();
        picture.cells = store.to_vec();
        Self(picture)
    }

    /// What the original draws of a machine that it steps itself, from state 0 on the first symbol of a word. The table goes by
    /// state, and in it by symbol. Nothing where the original refuses the size.
    pub fn of_machine(
        symbols: u32,
        table: &[Option<Transition>],
        input: &[u8],
        request: SpaceTimeRequest,
    ) -> Option<Self> {
        let action = |&(write, right, next): &Transition| {
            Action::single(Symbol::new(write), if right { Dir::R } else { Dir::L }, State::new(next))
        };
        let table = table.iter().map(|entry| entry.as_ref().map(action)).collect();
        let input: Vec<Symbol> = input.iter().copied().map(Symbol::new).collect();
        let mut picture = SpaceTime::new(&Machine { table, ..machine(symbols) }, &input, request).ok()?;
        while !picture.advance(u64::MAX).done {}
        Some(Self(picture))
    }

    /// Width and height in pixels, and the alphabet's count.
    pub fn size(&self) -> (u32, u32, usize) {
        (self.0.width, self.0.height, self.0.symbols)
    }

    pub fn grid(&self) -> Grid {
        grid(self.fitted())
    }

    /// The grid, with the size and the rows that are drawn, in the words of the interface's record. The original counts no cells
    /// that it leaves out: those two words are what a fit has.
    pub fn record(&self) -> Vec<u64> {
        let grid = self.grid();
        let (bins, first, cells, p, margin) = match grid.columns {
            Columns::Cells { first, count, px, x0 } => (0, first, count.into(), px.into(), x0.into()),
            Columns::Bins { first, cells, .. } => (1, first, cells, 0, 0),
        };
        let (width, height, symbols) = self.size();
        vec![
            width.into(),
            height.into(),
            symbols as u64,
            u64::from(!grid.sweeps),
            bins,
            first.cast_unsigned() ^ (1 << 63),
            cells,
            p,
            margin,
            grid.row_px.into(),
            grid.rows.into(),
            grid.first,
            grid.stride,
            grid.last,
            self.rows_done().into(),
            0,
            0,
        ]
    }

    /// Draws the next row, as the original's `draw` does once its machine has reached the row's step.
    pub fn draw(&mut self, tape: &Tape, swept: Option<Pair>) {
        let fitted = self.fitted().clone();
        let row = self.0.progress.rows_done;
        self.0.sim.tape = tape.0.clone();
        self.0.render_row(&fitted, row, swept);
        self.0.progress.rows_done = row + 1;
    }

    /// Puts a tape under the machine's head, for `draw_first`.
    pub fn load(&mut self, tape: &Tape) {
        self.0.sim.tape = tape.0.clone();
    }

    /// Draws the first row from the loaded tape: the original's `render_row` and nothing else, to be timed.
    pub fn draw_first(&mut self, swept: Option<Pair>) {
        let fitted = self.0.grid.take().expect("a picture is made with its grid");
        self.0.render_row(&fitted, 0, swept);
        self.0.grid = Some(fitted);
    }

    /// Draws a row from a tape that is lent to the machine meanwhile: the original's `render_row` and nothing else, to be timed.
    pub fn draw_row(&mut self, row: u32, tape: &mut Tape, swept: Option<Pair>) {
        let fitted = self.0.grid.take().expect("a picture is made with its grid");
        std::mem::swap(&mut self.0.sim.tape, &mut tape.0);
        self.0.render_row(&fitted, row, swept);
        std::mem::swap(&mut self.0.sim.tape, &mut tape.0);
        self.0.grid = Some(fitted);
    }

    pub fn rows_done(&self) -> u32 {
        self.0.progress.rows_done
    }

    pub fn index(&self) -> &[u8] {
        self.0.index_buffer()
    }

    /// The symbols of the drawn cells; empty in bins.
    pub fn store(&self) -> &[u8] {
        &self.0.cells
    }

    pub fn locate(&self, x: u32, y: u32) -> Option<Located> {
        let CellRef { step, from, to, symbol } = self.0.locate(x, y)?;
        Some(Located { step, from, to, symbol: symbol.map(Symbol::get) })
    }

    pub fn row(&self, row: u32) -> Option<RowLines> {
        self.0.row(row)
    }

    pub fn tape_range(&self) -> Option<Pair> {
        self.0.tape_range().map(|range| (*range.start(), *range.end()))
    }

    pub fn rgba(&self, palette: &Palette) -> Vec<u8> {
        self.0.rgba(palette)
    }

    fn fitted(&self) -> &Fitted {
        self.0.grid.as_ref().expect("a picture is made with its grid")
    }
}

/// Bins over `cells` cells, one a pixel column.
#[derive(Copy, Clone, Debug)]
pub struct Bins(Cut);

impl Bins {
    pub fn new(cells: u64, width: u32) -> Self {
        Self(Cut::new(cells, width))
    }

    /// The bin in which the head cell `k` is drawn.
    pub fn of(self, k: u64) -> usize {
        self.0.of(k)
    }

    pub fn cells_of(self, x: u32) -> (u64, u64) {
        self.0.cells_of(x)
    }

    pub fn overlapping(self, lo: u64, hi: u64) -> (usize, usize) {
        self.0.overlapping(lo, hi)
    }

    /// Adds the cells `lo` to `hi` to the tallies, from a cursor that an earlier call may have left.
    pub fn add(self, tallies: &mut [u128], cursor: &mut usize, lo: u64, hi: u64) {
        super::add_to_bins(self.0, tallies, cursor, lo, hi);
    }

    /// The bytes of a row.
    pub fn values(self, tape: &Tape, first: i64, swept: Option<Pair>) -> Vec<u8> {
        super::bin_values(&tape.0, first, self.0, swept)
    }
}

pub fn ink_shade(share: f64) -> u8 {
    super::ink_shade(share)
}

pub fn symbol_shade(symbols: usize, symbol: u8) -> u8 {
    super::symbol_shade(symbols, Symbol::new(symbol))
}

/// The byte of a bin with this tally in a window of `cells` cells, by the original's whole way there: one bin over
/// them all, whose tally is the length of a written run. `tally` is at most `cells`.
pub fn tally_shade(tally: u64, cells: u64) -> u8 {
    let tape = Tape::new(-1, 0, [], [(1, tally)]);
    Bins::new(cells, 1).values(&tape, 0, None)[0]
}

pub fn colour_table(palette: &Palette) -> [Rgb; 256] {
    super::colour_table(palette)
}

/// The colours of any index bytes.
pub fn rgba(index: &[u8], palette: &Palette) -> Vec<u8> {
    let mode = SpaceTimeMode::Overview { max_steps: 0 };
    let mut picture = blank(1, 1, 1, mode).expect("one pixel is a size that the original takes");
    picture.index = index.to_vec();
    picture.rgba(palette)
}

fn grid(fitted: &Fitted) -> Grid {
    let columns = match fitted.columns {
        Across::Cells { first, count, px, x0 } => Columns::Cells { first, count, px, x0 },
        Across::Bins { first, cells, width } => Columns::Bins { first, cells, width },
    };
    Grid {
        columns,
        row_px: fitted.row_px,
        rows: fitted.rows,
        first: fitted.first,
        stride: fitted.stride,
        last: fitted.last,
        sweeps: fitted.sweeps,
    }
}

fn fitted(grid: &Grid) -> Fitted {
    let columns = match grid.columns {
        Columns::Cells { first, count, px, x0 } => Across::Cells { first, count, px, x0 },
        Columns::Bins { first, cells, width } => Across::Bins { first, cells, width },
    };
    Fitted {
        columns,
        row_px: grid.row_px,
        rows: grid.rows,
        first: grid.first,
        stride: grid.stride,
        last: grid.last,
        sweeps: grid.sweeps,
    }
}

fn blank(width: u32, height: u32, symbols: u32, mode: SpaceTimeMode) -> Option<SpaceTime> {
    SpaceTime::new(&machine(symbols), &[], SpaceTimeRequest { width, height, mode }).ok()
}

fn undrawn(width: u32, height: u32, symbols: u32, mode: SpaceTimeMode) -> SpaceTime {
    let mut picture = blank(1, 1, symbols, mode).expect("one pixel is a size that the original takes");
    (picture.width, picture.height) = (width, height);
    picture
}

/// A machine of that many tape symbols and no transition: the original takes the alphabet's count from it.
fn machine(symbols: u32) -> Machine {
    let glyphs: Vec<char> = ('a'..).take(symbols as usize - 1).collect();
    let alphabet = Alphabet::new(' ', &[], &glyphs).expect("1 to 64 symbols");
    Machine {
        name: String::new(),
        kind: Kind::default(),
        tapes: 1,
        stride: alphabet.len(),
        alphabet,
        states: Vec::new(),
        start: State::new(0),
        table: Box::default(),
        origin: Box::default(),
        packed: Box::default(),
        decoder: Decoder::default(),
        input: String::new(),
    }
}
