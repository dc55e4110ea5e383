//! The limits of the rules (RULES, Limits), and the numbers that a fit goes by (RULES, Fit), under the original's names where
//! it has one.

/// The largest side of a picture, in pixels.
pub const MAX_SIDE: u32 = 4096;

/// The widest picture that goes on a page, beside its steps.
pub const MAX_PAGE_WIDTH: u32 = 59;

/// The largest alphabet, blank included.
pub const MAX_SYMBOLS: u32 = 64;

/// The most cells of a window in bins.
pub const MAX_CELLS: u64 = 1 << 50;

/// Positions of orders and tapes are within plus and minus this.
pub const MAX_POSITION: i64 = 1 << 62;

/// The largest cell size that a fit chooses by itself, in pixels.
pub const MAX_AUTO_CELL_PX: u32 = 8;

/// The fewest rows of an exact picture in cells that is not given their size, where the run is longer and the picture is high
/// enough.
pub const MIN_AUTO_ROWS: usize = 32;

/// How far the colour of [`crate::index::SWEPT`] is from the background to the accent.
pub const HEAD_RANGE_TINT: f64 = 0.35;
