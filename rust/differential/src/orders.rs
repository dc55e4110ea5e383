//! What a picture is fitted to, and its fit by the rules (RULES, Fit), plainly: positions are i128, so nothing saturates.

use crate::calls::MOST_CELLS;
use crate::columns::{MOST_PIXELS, ZERO};
use crate::record::{MOST_SYMBOLS, Record};
use crate::tape::{L, smaller_number, smaller_position};

/// Two positions, low first where they are not damaged.
pub type Pair = (i64, i64);

#[derive(Copy, Clone, Debug, PartialEq, Eq)]
pub struct Frame {
    pub width: u32,
    pub height: u32,
    pub symbols: u32,
}

#[derive(Copy, Clone, Debug, PartialEq, Eq)]
pub struct OverviewOrder {
    pub total: u64,
    pub extent: Pair,
}

#[derive(Clone, Debug, PartialEq, Eq)]
pub struct ExactOrder {
    pub first_step: u64,
    pub size: Option<u32>,
    pub heads: Vec<i64>,
    pub written: Option<Pair>,
    pub halted: bool,
}

impl Frame {
    /// Refusals 1 and 2.
    fn refusal(self) -> Result<(), u32> {
        let side = |pixels: u32| (1..=MOST_PIXELS).contains(&u64::from(pixels));
        if !side(self.width) || !side(self.height) {
            return Err(1);
        }
        if (1..=MOST_SYMBOLS).contains(&u64::from(self.symbols)) { Ok(()) } else { Err(2) }
    }

    pub fn smaller(self) -> Vec<Self> {
        let less = |number: u32| smaller_number(u64::from(number)).into_iter().map(|number| number as u32);
        let widths = less(self.width).map(|width| Self { width, ..self });
        let heights = less(self.height).map(|height| Self { height, ..self });
        let symbols = less(self.symbols).map(|symbols| Self { symbols, ..self });
        widths.chain(heights).chain(symbols).collect()
    }
}

/// Refusal 3.
fn beyond(position: i64) -> bool {
    i128::from(position).abs() > i128::from(L)
}

/// Refusal 4.
fn reversed((low, high): Pair) -> bool {
    low > high
}

fn span((low, high): Pair) -> i128 {
    i128::from(high) - i128::from(low) + 1
}

pub fn smaller_pair((low, high): Pair) -> Vec<Pair> {
    let lows = smaller_position(low).into_iter().map(|low| (low, high));
    let highs = smaller_position(high).into_iter().map(|high| (low, high));
    lows.chain(highs).collect()
}

/// The words from 4 to 8.
type Laid = [u64; 5];

fn offset(position: i128) -> u64 {
    (position + i128::from(ZERO)) as u64
}

/// Cells of p around a pair.
fn cells(width: u32, p: u32, around: Pair) -> Laid {
    let count = width / p;
    let pad = (i128::from(count) - span(around)).max(0) / 2;
    let first = i128::from(around.0) - pad;
    [0, offset(first), count.into(), p.into(), ((width - count * p) / 2).into()]
}

/// Bins over a pair, or refusal 6.
fn bins(over: Pair) -> Result<Laid, u32> {
    let cells = u64::try_from(span(over)).ok().filter(|&cells| cells <= MOST_CELLS).ok_or(6u32)?;
    Ok([1, offset(i128::from(over.0)), cells, 0, 0])
}

/// `timing` is row height, rows, first step, stride and last step.
fn record(frame: Frame, exact: bool, [bins, first, cells, p, margin]: Laid, timing: [u64; 5]) -> Record {
    let [row_height, rows, first_step, stride, last_step] = timing;
    let Frame { width, height, symbols } = frame;
    Record([
        width.into(),
        height.into(),
        symbols.into(),
        exact.into(),
        bins,
        first,
        cells,
        p,
        margin,
        row_height,
        rows,
        first_step,
        stride,
        last_step,
        0,
        0,
        0,
    ])
}

/// The fewest rows that are wanted of a run that goes on.
const WANTED: usize = 32;
/// The largest size that is chosen.
const LARGEST: u32 = 8;

impl ExactOrder {
    /// What the fit of an exact picture answers.
    pub fn fit(&self, frame: Frame) -> Result<Record, u32> {
        frame.refusal()?;
        let ends = self.written.iter().flat_map(|&(low, high)| [low, high]);
        if self.heads.iter().copied().chain(ends).any(beyond) {
            return Err(3);
        }
        if self.written.is_some_and(reversed) {
            return Err(4);
        }
        let given = self.size_in(frame);
        if !(1..=self.row_limit(frame)).contains(&self.heads.len()) {
            return Err(5);
        }
        let laid = match given {
            Some(p) => self.given(frame, p),
            None => self.chosen(frame)?,
        };
        let row_height = match (laid[0], laid[3]) {
            (1, _) => 1,
            (_, p) => p,
        };
        let rows = (self.heads.len() as u64).min(u64::from(frame.height) / row_height);
        Ok(record(frame, true, laid, [row_height, rows, self.first_step, 1, u64::MAX]))
    }

    /// The size that is given, held to its bounds; the frame is one that is taken.
    fn size_in(&self, frame: Frame) -> Option<u32> {
        self.size.map(|size| size.clamp(1, frame.width.min(frame.height)))
    }

    /// The most heads; the frame is one that is taken.
    pub fn row_limit(&self, frame: Frame) -> usize {
        (frame.height / self.size_in(frame).unwrap_or(1)) as usize
    }

    fn given(&self, frame: Frame, p: u32) -> Laid {
        let rows = (frame.height / p) as usize;
        let everything = self.least(self.written, rows);
        let fits = span(everything) <= i128::from(frame.width / p);
        cells(frame.width, p, if fits { everything } else { self.least(None, rows) })
    }

    fn chosen(&self, frame: Frame) -> Result<Laid, u32> {
        let all = self.heads.len();
        let wanted = if self.halted { all } else { all.min(WANTED) };
        for p in (1..=LARGEST.min(frame.height)).rev() {
            let rows = (frame.height / p) as usize;
            let around = self.least(self.written, rows);
            if rows >= wanted && span(around) <= i128::from(frame.width / p) {
                return Ok(cells(frame.width, p, around));
            }
        }
        bins(self.least(self.written, frame.height as usize))
    }

    /// The least pair that holds a pair and the first heads, of which there is one.
    fn least(&self, pair: Option<Pair>, rows: usize) -> Pair {
        let mut held: Vec<i64> = self.heads.iter().copied().take(rows).collect();
        held.extend(pair.iter().flat_map(|&(low, high)| [low, high]));
        held.sort_unstable();
        (held[0], held[held.len() - 1])
    }

    pub fn smaller(&self) -> Vec<Self> {
        let mut orders = Vec::new();
        let lengths = smaller_number(self.heads.len() as u64).into_iter();
        orders.extend(lengths.map(|length| Self { heads: self.heads[..length as usize].to_vec(), ..self.clone() }));
        for at in 0..self.heads.len().min(64) {
            let mut less = self.clone();
            less.heads.remove(at);
            orders.push(less);
            for nearer in smaller_position(self.heads[at]) {
                let mut less = self.clone();
                less.heads[at] = nearer;
                orders.push(less);
            }
        }
        let steps = smaller_number(self.first_step).into_iter();
        orders.extend(steps.map(|first_step| Self { first_step, ..self.clone() }));
        if let Some(pair) = self.written {
            let pairs = smaller_pair(pair).into_iter().map(Some);
            orders.extend([None].into_iter().chain(pairs).map(|written| Self { written, ..self.clone() }));
        }
        if let Some(size) = self.size {
            let sizes = smaller_number(u64::from(size)).into_iter().map(|size| Some(size as u32));
            orders.extend([None].into_iter().chain(sizes).map(|size| Self { size, ..self.clone() }));
        }
        if self.halted {
            orders.push(Self { halted: false, ..self.clone() });
        }
        orders
    }
}

impl OverviewOrder {
    /// What the fit of an overview answers.
    pub fn fit(self, frame: Frame) -> Result<Record, u32> {
        frame.refusal()?;
        let Self { total, extent } = self;
        if beyond(extent.0) || beyond(extent.1) {
            return Err(3);
        }
        if reversed(extent) {
            return Err(4);
        }
        let height = u64::from(frame.height);
        let (stride, rows) = match height {
            1 => (total.max(1), 1),
            _ => {
                let stride = rounded_up(total, height - 1).max(1);
                (stride, rounded_up(total, stride) + 1)
            }
        };
        let cut = span(extent) > i128::from(frame.width);
        let laid = if cut {
            bins(extent)?
        } else {
            let p = (i128::from(frame.width) / span(extent)).clamp(1, 8) as u32;
            cells(frame.width, p, extent)
        };
        let row_height = if cut { 1 } else { (height / rows).clamp(1, laid[3]) };
        Ok(record(frame, false, laid, [row_height, rows, 0, stride, total]))
    }

    pub fn smaller(self) -> Vec<Self> {
        let totals = smaller_number(self.total).into_iter().map(|total| Self { total, ..self });
        let extents = smaller_pair(self.extent).into_iter().map(|extent| Self { extent, ..self });
        totals.chain(extents).collect()
    }
}

fn rounded_up(number: u64, by: u64) -> u64 {
    number / by + u64::from(!number.is_multiple_of(by))
}
