//! Columns as the probes are handed them, and the rules on them (RULES, Fit and Bins), plainly: by the intervals of
//! cells and bins in units of 1 / width cell, without a division, and in u128, so that nothing wraps.

use std::fmt;

use crate::calls::MOST_CELLS;
use crate::case::Fields;
use crate::tape::{L, smaller_number};

/// The numbers from the first to the second, both included.
pub type Found = (u64, u64);

/// Position 0 in its offset form.
pub const ZERO: u64 = 1 << 63;
/// The ends of the domain in their offset form.
pub const LOWEST: u64 = ZERO - L as u64;
pub const HIGHEST: u64 = ZERO + L as u64;

/// The largest picture.
pub const MOST_PIXELS: u64 = 4096;

/// Sound or not; positions are in their offset form.
#[derive(Copy, Clone, Debug, PartialEq, Eq)]
pub enum Columns {
    Cells { first: u64, count: u64, px: u64, x0: u64 },
    Bins { first: u64, cells: u64, width: u64 },
}

impl Columns {
    /// Cells as the rules lay them out in a picture of a width.
    pub fn cells(width: u64, px: u64, first: u64) -> Self {
        let count = width / px;
        Self::Cells { first, count, px, x0: (width - count * px) / 2 }
    }

    /// Whether they are bins, then first, count or cells, px or width, and x0.
    pub fn numbers(self) -> (bool, u64, u64, u64, u64) {
        match self {
            Self::Cells { first, count, px, x0 } => (false, first, count, px, x0),
            Self::Bins { first, cells, width } => (true, first, cells, width, 0),
        }
    }

    fn of_numbers((bins, first, cells, size, x0): (bool, u64, u64, u64, u64)) -> Self {
        if bins { Self::Bins { first, cells, width: size } } else { Self::Cells { first, count: cells, px: size, x0 } }
    }

    pub fn read(fields: &Fields) -> Result<Self, String> {
        let numbers = ["first", "cells", "size", "x0"].map(|name| fields.number(name));
        let [first, cells, size, x0] = numbers;
        Ok(Self::of_numbers((fields.number::<u8>("bins")? == 1, first?, cells?, size?, x0?)))
    }

    pub fn smaller(self) -> Vec<Self> {
        let (bins, first, cells, size, x0) = self.numbers();
        let firsts = smaller_number(first).into_iter().map(|first| (bins, first, cells, size, x0));
        let cells_less = smaller_number(cells).into_iter().map(|cells| (bins, first, cells, size, x0));
        let sizes = smaller_number(size).into_iter().map(|size| (bins, first, cells, size, x0));
        let margins = smaller_number(x0).into_iter().map(|x0| (bins, first, cells, size, x0));
        firsts.chain(cells_less).chain(sizes).chain(margins).map(Self::of_numbers).collect()
    }

    /// The window's first position and its number of cells.
    pub fn window(self) -> (u64, u64) {
        let (_, first, cells, _, _) = self.numbers();
        (first, cells)
    }

    /// Refusal 15, as far as it is about columns, for a width that is taken.
    pub fn sound_in(self, picture: u64) -> bool {
        let taken = (1..=MOST_PIXELS).contains(&picture);
        taken
            && match self {
                Self::Cells { first, px, .. } => {
                    (1..=picture).contains(&px)
                        && (LOWEST - 2047..=HIGHEST).contains(&first)
                        && self == Self::cells(picture, px, first)
                }
                Self::Bins { first, cells, width } => {
                    let last = u128::from(first) + u128::from(cells).saturating_sub(1);
                    width == picture
                        && (width + 1..=MOST_CELLS).contains(&cells)
                        && first >= LOWEST
                        && last <= u128::from(HIGHEST)
                }
            }
    }

    /// The cells of sound columns that a pixel locates to.
    pub fn located(self, x: u64) -> Option<Found> {
        match self {
            Self::Cells { first, count, px, x0 } => {
                let k = (0..count).find(|k| (x0 + k * px..x0 + (k + 1) * px).contains(&x))?;
                Some((first + k, first + k))
            }
            Self::Bins { first, cells, width } => {
                let (k, w, c, v) = (u128::from(cells), u128::from(width), u128::from(cells), u128::from(x));
                let from = first_where(k, |k| (k + 1) * w > v * c);
                let past = first_where(k, |k| k * w >= (v + 1) * c);
                (x < width).then(|| (first + from, first + past - 1))
            }
        }
    }

    /// The pixels of sound columns on which a head is drawn.
    pub fn head(self, position: u64) -> Option<Found> {
        let (k, _) = self.clipped(position, position)?;
        match self {
            Self::Cells { px, x0, .. } => Some((x0 + k * px, x0 + (k + 1) * px - 1)),
            Self::Bins { cells, width, .. } => {
                let (c, w, k) = (u128::from(cells), u128::from(width), u128::from(k));
                let v = first_where(w, |v| 2 * (v + 1) * c > (2 * k + 1) * w);
                Some((v, v))
            }
        }
    }

    /// The pixels of sound columns that a swept pair touches.
    pub fn swept(self, low: u64, high: u64) -> Option<Found> {
        let (lo, hi) = self.clipped(low, high)?;
        match self {
            Self::Cells { px, x0, .. } => Some((x0 + lo * px, x0 + (hi + 1) * px - 1)),
            Self::Bins { cells, width, .. } => {
                let (c, w) = (u128::from(cells), u128::from(width));
                let from = first_where(w, |v| (v + 1) * c > u128::from(lo) * w);
                let past = first_where(w, |v| v * c >= (u128::from(hi) + 1) * w);
                Some((from, past - 1))
            }
        }
    }

    /// The cells of the window that lie in a pair, counted from the window's first.
    pub fn clipped(self, low: u64, high: u64) -> Option<Found> {
        let (first, cells) = self.window();
        clipped(first, cells, low, high)
    }
}

/// The cells of a window of `cells` cells, which is not empty, that lie in a pair.
pub fn clipped(first: u64, cells: u64, low: u64, high: u64) -> Option<Found> {
    let (from, to) = (low.max(first), high.min(first + (cells - 1)));
    (from <= to).then(|| (from - first, to - first))
}

/// How much of each bin the cells `lo` to `hi` cover, in units of 1 / width cell: all of them at once.
pub fn overlaps(width: usize, cells: u64, (lo, hi): Found) -> impl Iterator<Item = u128> {
    let (w, c) = (width as u128, u128::from(cells));
    let (start, end) = (u128::from(lo) * w, (u128::from(hi) + 1) * w);
    (0..w).map(move |v| end.min((v + 1) * c).saturating_sub(start.max(v * c)))
}

/// The least number below `bound` for which it holds, or `bound`: it holds from some number on.
fn first_where(bound: u128, holds: impl Fn(u128) -> bool) -> u64 {
    let (mut low, mut high) = (0, bound);
    while low < high {
        let middle = low.midpoint(high);
        if holds(middle) {
            high = middle;
        } else {
            low = middle + 1;
        }
    }
    low as u64
}

impl fmt::Display for Columns {
    fn fmt(&self, f: &mut fmt::Formatter<'_>) -> fmt::Result {
        let (bins, first, cells, size, x0) = self.numbers();
        write!(f, "bins={} first={first} cells={cells} size={size} x0={x0}", u8::from(bins))
    }
}
