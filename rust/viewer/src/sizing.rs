//! How large a picture is. A side that is not given is no longer than the default, and no longer than what is drawn: the blank
//! that a fit leaves beside and below a small run is cut away.

use spacetime::{Exact, Overview, Pair, Picture, Refusal};

use crate::tape::widened;

/// The longest sides of a picture that is not given them.
pub const WIDTH: u32 = 640;
pub const HEIGHT: u32 = 480;

/// The sides that are given, in pixels.
#[derive(Copy, Clone, Debug)]
pub struct Size {
    pub width: Option<u32>,
    pub height: Option<u32>,
    /// The longest width where none is given.
    pub widest: u32,
}

impl Size {
    /// The largest size that the picture can get.
    pub fn largest(self) -> (u32, u32) {
        (self.width.unwrap_or(self.widest), self.height.unwrap_or(HEIGHT))
    }

    /// The size for as much as a picture of the largest size shows: its rows and, in cells, those of the pair if they have room.
    fn cut(self, picture: &Picture, pair: Pair) -> (u32, u32) {
        let cells = u32::try_from(pair.0.abs_diff(pair.1) + 1).unwrap_or(u32::MAX);
        let width = picture.cell_px().map_or(u32::MAX, |size| cells.saturating_mul(size));
        let height = picture.rows() * picture.row_height();
        (self.width.unwrap_or(width.min(self.widest)), self.height.unwrap_or(height))
    }
}

/// The overview, in cells with a window of the extent alone where no width is given.
pub fn overview(size: Size, symbols: u32, fit: &Overview) -> Result<Picture, Refusal> {
    let (width, height) = size.largest();
    let largest = Picture::overview(width, height, symbols, fit)?;
    let cut @ (width, height) = size.cut(&largest, fit.extent);
    if cut == size.largest() { Ok(largest) } else { Picture::overview(width, height, symbols, fit) }
}

/// The exact picture, in cells with a window of the cells in use alone where no width is given. In bins the size stays: it
/// shows as many rows as there are, and a smaller height would make cells of some.
pub fn exact(size: Size, symbols: u32, fit: &Exact) -> Result<Picture, Refusal> {
    let (width, height) = size.largest();
    let largest = Picture::exact(width, height, symbols, fit)?;
    let Some(cell_px) = largest.cell_px() else {
        return Ok(largest);
    };
    let cut @ (width, height) = size.cut(&largest, used(fit, largest.rows()));
    if cut == size.largest() {
        return Ok(largest);
    }
    let rows = usize::try_from(largest.rows()).expect("at most 4096");
    let fit = Exact { cell_px: Some(cell_px), heads: &fit.heads[..rows], ..fit.clone() };
    Picture::exact(width, height, symbols, &fit)
}

/// The rows that a picture of this size has room for.
pub fn row_limit(size: Size, cell_px: Option<u32>) -> usize {
    let (width, height) = size.largest();
    Exact::row_limit(width, height, cell_px)
}

/// The cells that are written at the first row, and those that the head visits in the rows.
pub fn used(fit: &Exact, rows: u32) -> Pair {
    let heads = fit.heads.iter().take(usize::try_from(rows).expect("at most 4096"));
    heads.fold(widened(fit.written, (fit.heads[0], fit.heads[0])), |pair, &head| widened(Some(pair), (head, head)))
}
