//! Our picture of a fit of the original's: the same words, and memory of their lengths.

use reference::{Columns, Picture};

use crate::ffi;

/// Position 0 in its offset form.
const ZERO: u64 = 1 << 63;

/// The word that says whether the columns are bins.
const BINS: usize = 4;

/// The word of the rows done.
pub const DONE: usize = 14;

/// A picture with no row drawn.
pub fn beside(original: &Picture) -> ffi::Picture {
    let record = record(original);
    let tallies = if record[BINS] == 1 { original.size().0 } else { 0 };
    ffi::Picture {
        record,
        index: vec![0; original.index().len()],
        store: vec![0; original.store().len()],
        tallies: vec![0; tallies as usize],
    }
}

/// The words of a picture of the original's.
pub fn record(original: &Picture) -> ffi::Record {
    let grid = original.grid();
    let offset = |position: i64| position.cast_unsigned() ^ ZERO;
    let (bins, first, cells, px, x0) = match grid.columns {
        Columns::Cells { first, count, px, x0 } => (0, offset(first), count.into(), px.into(), x0.into()),
        Columns::Bins { first, cells, .. } => (1, offset(first), cells, 0, 0),
    };
    let (width, height, symbols) = original.size();
    let (width, height) = (width.into(), height.into());
    let (row_px, rows) = (grid.row_px.into(), grid.rows.into());
    let exact = u64::from(!grid.sweeps);
    [
        width,
        height,
        symbols as u64,
        exact,
        bins,
        first,
        cells,
        px,
        x0,
        row_px,
        rows,
        grid.first,
        grid.stride,
        grid.last,
        0,
        0,
        0,
    ]
}
