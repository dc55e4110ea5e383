//! The plain picture (RULES, Lists of calls): a grid from the order, index bytes and a store, all 0 at first,
//! and the calls that were accepted, whose count is n. Each pixel of a band is worked out by itself, from the band's tape.

use crate::columns::{Columns, ZERO};
use crate::model::{Stretch, stretches};
use crate::orders::Pair;
use crate::record::{CELLS, DONE, FIRST, LEFT, Located, RIGHT, ROW_HEIGHT, Record, SYMBOLS, WIDTH};
use crate::rows::{HEAD, SWEPT, refusal, shade};
use crate::tape::Tape;

#[derive(Clone)]
pub struct PlainPicture {
    /// With no rows done.
    grid: Record,
    pub index: Vec<u8>,
    pub store: Vec<u8>,
    /// Lent with every call; they hold the tallies of the last row that was drawn in bins.
    pub tallies: Vec<u64>,
    n: u64,
    /// The written cells beside the window on the last accepted tape, left and right.
    beside: [u64; 2],
}

/// What a row is drawn from.
struct Drawn {
    stretches: Vec<Stretch>,
    head: i128,
    swept: Option<Pair>,
}

impl PlainPicture {
    /// The picture of a fit's record as it is after opening.
    pub fn opened(grid: &Record, tallies: Vec<u64>) -> Self {
        let (index, store) = (vec![0; grid.index_length()], vec![0; grid.store_length()]);
        Self { grid: grid.restarted(), index, store, tallies, n: 0, beside: [0; 2] }
    }

    /// The record last returned.
    pub fn record(&self) -> Record {
        let [left, right] = self.beside;
        self.grid.with(DONE, self.n).with(LEFT, left).with(RIGHT, right)
    }

    pub fn lengths(&self) -> [usize; 3] {
        [self.index.len(), self.store.len(), self.tallies.len()]
    }

    /// What a row call answers that is handed this record, slices of these lengths and a tape: 0 or a refusal's number.
    pub fn refusal(&self, handed: Option<&Record>, lengths: [usize; 3], tape: &Tape, swept: Option<Pair>) -> u32 {
        refusal(&handed.copied().unwrap_or(self.record()), lengths, tape, swept)
    }

    pub fn locate(&self, x: u32, y: u32) -> Result<Located, u32> {
        self.record().locate(&self.store, x, y)
    }

    /// Draws row n from a call that is accepted, and answers its units.
    pub fn draw(&mut self, tape: &Tape, swept: Option<Pair>) -> u64 {
        let drawn = Drawn { stretches: stretches(tape), head: tape.head.into(), swept };
        let width = self.grid.0[WIDTH] as usize;
        let height = self.grid.0[ROW_HEIGHT] as usize;
        let from = self.n as usize * height;
        for y in from..from + height {
            for x in 0..width {
                self.index[y * width + x] = self.byte(&drawn, x as u64);
            }
        }
        let units = if let Some(Columns::Cells { count, .. }) = self.grid.columns() {
            for k in 0..count {
                self.store[(self.n * count + k) as usize] = drawn.symbol(self.position(k));
            }
            (0..count).filter(|&k| drawn.symbol(self.position(k)) != 0).count() as u64
        } else {
            self.tallies = (0..width as i128).map(|v| self.tally(&drawn, v) as u64).collect();
            self.tallies.iter().sum()
        };
        self.n += 1;
        let (first, past) = (self.position(0), self.position(self.grid.0[CELLS]));
        self.beside = [drawn.written(i128::MIN, first), drawn.written(past, i128::MAX)];
        units
    }

    /// The position of cell k of the window.
    fn position(&self, k: u64) -> i128 {
        i128::from(self.grid.0[FIRST]) - i128::from(ZERO) + i128::from(k)
    }

    fn byte(&self, drawn: &Drawn, x: u64) -> u8 {
        match self.grid.columns() {
            Some(Columns::Cells { count, px, x0, .. }) => {
                let cell = (0..count).find(|k| x0 + k * px <= x && x < x0 + (k + 1) * px);
                cell.map_or(0, |k| self.cell(drawn, self.position(k)))
            }
            _ => self.bin(drawn, x.into()),
        }
    }

    fn cell(&self, drawn: &Drawn, position: i128) -> u8 {
        let symbol = drawn.symbol(position);
        let most = self.grid.0[SYMBOLS].saturating_sub(1).max(1);
        let swept = drawn.swept.is_some_and(|(low, high)| (low.into()..=high.into()).contains(&position));
        match (position == drawn.head, symbol, swept) {
            (true, _, _) => HEAD,
            (_, 0, true) => SWEPT,
            _ => shade(symbol != 0, f64::from(symbol) / most as f64),
        }
    }

    fn bin(&self, drawn: &Drawn, v: i128) -> u8 {
        let [w, c] = [WIDTH, CELLS].map(|word| i128::from(self.grid.0[word]));
        let k = drawn.head - self.position(0);
        let head = (0..c).contains(&k) && (2 * k + 1) * w / (2 * c) == v;
        let swept = drawn.swept.is_some_and(|(low, high)| self.covered(v, low.into(), high.into()) > 0);
        match (head, self.tally(drawn, v), swept) {
            (true, _, _) => HEAD,
            (_, 0, true) => SWEPT,
            (_, tally, _) => shade(tally != 0, tally as f64 / c as f64),
        }
    }

    fn tally(&self, drawn: &Drawn, v: i128) -> i128 {
        let written = drawn.stretches.iter().filter(|stretch| stretch.symbol != 0);
        written.map(|stretch| self.covered(v, stretch.low, stretch.high)).sum()
    }

    /// How much of bin v the window's cells from `low` to `high` cover, in units of 1 / W cell.
    fn covered(&self, v: i128, low: i128, high: i128) -> i128 {
        let [w, c] = [WIDTH, CELLS].map(|word| i128::from(self.grid.0[word]));
        let (from, past) = ((low - self.position(0)).max(0), (high - self.position(0) + 1).min(c));
        ((past * w).min((v + 1) * c) - (from * w).max(v * c)).max(0)
    }
}

impl Drawn {
    /// How many cells are written at the positions from `from` to before `past`.
    fn written(&self, from: i128, past: i128) -> u64 {
        let written = self.stretches.iter().filter(|stretch| stretch.symbol != 0);
        written.map(|stretch| ((stretch.high + 1).min(past) - stretch.low.max(from)).max(0) as u64).sum()
    }

    fn symbol(&self, position: i128) -> u8 {
        let holds = |stretch: &&Stretch| stretch.low <= position && position <= stretch.high;
        self.stretches.iter().find(holds).map_or(0, |stretch| stretch.symbol)
    }
}
