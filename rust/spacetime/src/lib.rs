//! Space-time pictures of Turing machines: the proved library, for Rust.
//!
//! A space-time picture has one row for each sampled step of a run, and the tape runs across. A [`Picture`] is fitted to an
//! order, [`Exact`] or [`Overview`], and then drawn row by row from the tapes of a stepper; what steps the machine is the
//! caller's. What a call answers is decided by the rules (docs/RULES.md) and proved in the library; this crate owns the
//! memory that the library is lent, and adds nothing to the answers.
//!
//! ```
//! use spacetime::{Exact, Palette, Picture, Run, Tape};
//!
//! let order = Exact { first_step: 0, cell_px: Some(2), heads: &[0, 1], written: Some((0, 0)), halted: false };
//! let mut picture = Picture::exact(8, 4, 2, &order)?;
//! assert_eq!(picture.tape_range(), -1..=2);
//!
//! // The head on a written cell, and then one cell to its right.
//! picture.draw_row(&Tape { head: 0, cur: 1, ..Tape::default() }, None)?;
//! picture.draw_row(&Tape { head: 1, left: vec![Run { symbol: 1, len: 1 }], ..Tape::default() }, None)?;
//! assert_eq!(picture.index_buffer()[..8], [0, 0, 255, 255, 0, 0, 0, 0]);
//! assert_eq!(picture.index_buffer()[24..], [0, 0, 64, 64, 255, 255, 0, 0]);
//! assert_eq!(picture.rgba(&Palette::LIGHT).len(), 4 * 8 * 4);
//! # Ok::<(), spacetime::Refusal>(())
//! ```

mod colours;
mod ffi;
mod joining;
mod limits;
mod picture;
mod refusal;
mod tape;
pub mod word;

pub use colours::{Palette, Rgb, rgba};
pub use limits::{
    HEAD_RANGE_TINT, MAX_AUTO_CELL_PX, MAX_CELLS, MAX_PAGE_WIDTH, MAX_POSITION, MAX_SIDE, MAX_SYMBOLS, MIN_AUTO_ROWS,
};
pub use picture::{CellRef, Exact, Overview, Pair, Picture, RECORD_WORDS, Upright};
pub use refusal::Refusal;
pub use tape::{LentSide, LentTape, Run, Tape};

/// What an index byte means (RULES, Rows).
pub mod index {
    /// A blank cell, an empty bin, or nothing drawn.
    pub const PAPER: u8 = 0;
    /// The lightest ink that a row draws; the shades run up to [`INK_MAX`].
    pub const INK_MIN: u8 = 8;
    /// The darkest ink.
    pub const INK_MAX: u8 = 64;
    /// Paper that the head visited since the row before.
    pub const SWEPT: u8 = 254;
    /// The head.
    pub const HEAD: u8 = 255;
}
