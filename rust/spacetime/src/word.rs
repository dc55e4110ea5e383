//! The places of the words in a picture's record, as include/spacetime.h has them.

/// The width in pixels.
pub const WIDTH: usize = 0;
/// The height in pixels.
pub const HEIGHT: usize = 1;
/// The alphabet's count.
pub const SYMBOLS: usize = 2;
/// 1 in an exact picture, 0 in an overview.
pub const EXACT: usize = 3;
/// 1 in bins, 0 in cells.
pub const BINS: usize = 4;
/// The window's first position, plus 2^63.
pub const FIRST: usize = 5;
/// The cells of the window.
pub const CELLS: usize = 6;
/// The size of a cell in pixels; in bins 0.
pub const CELL_PX: usize = 7;
/// The left margin in pixels; in bins 0.
pub const MARGIN: usize = 8;
/// The pixel lines of a row.
pub const ROW_PX: usize = 9;
/// The rows.
pub const ROWS: usize = 10;
/// The step of the first row.
pub const FIRST_STEP: usize = 11;
/// The steps from a row to the next.
pub const STRIDE: usize = 12;
/// The step that no row is beyond.
pub const LAST_STEP: usize = 13;
/// The rows drawn.
pub const DONE: usize = 14;
/// The written cells left of the window in the row drawn last.
pub const LEFT: usize = 15;
/// The written cells right of the window in the row drawn last.
pub const RIGHT: usize = 16;
