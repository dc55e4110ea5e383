//! Why a call is refused (RULES, Refusals).

use std::error::Error;
use std::fmt;

/// Why a call is refused. A refused call changes nothing. Each has the number of the rules, but for [`Refusal::Memory`], which
/// is this crate's own.
///
/// ```
/// use spacetime::{Overview, Picture, Refusal};
///
/// let refused = Picture::overview(0, 480, 2, &Overview { total: 5, extent: (0, 9) }).unwrap_err();
/// assert_eq!(refused, Refusal::Size);
/// assert_eq!(refused.number(), Some(1));
/// assert_eq!(refused.to_string(), "the picture must be 1 to 4096 pixels wide and high");
/// ```
#[derive(Copy, Clone, Debug, PartialEq, Eq, Hash, PartialOrd, Ord)]
#[non_exhaustive]
#[repr(u32)]
pub enum Refusal {
    /// Width or height is not 1 to 4096.
    Size = 1,
    /// The alphabet's count is not 1 to 64.
    Symbols = 2,
    /// A position of an order is beyond ±2^62.
    Position = 3,
    /// A pair of an order has its high end first.
    Reversed = 4,
    /// There are no heads, or more than [`crate::Exact::row_limit`].
    Heads = 5,
    /// Bins would cover more than 2^50 cells.
    Cells = 6,
    /// The index has not one byte for each pixel.
    IndexLength = 7,
    /// The store has not one byte for each cell of each row; in bins, it has any.
    StoreLength = 8,
    /// The tallies are not one for each bin. A [`crate::Picture`] keeps its own, so none of its calls is refused by this.
    TalliesLength = 9,
    /// The output has not four bytes for each byte of the index.
    OutputLength = 10,
    /// A side's symbols and lengths differ in number, a run has no cell, or a symbol, the head's included, is not below the
    /// alphabet's count.
    Runs = 11,
    /// The head, or the far end of a side's runs, is beyond ±2^62.
    Reach = 12,
    /// A swept pair has its high end first, is beyond ±2^62, or is given in an exact picture.
    Swept = 13,
    /// All rows are drawn.
    Complete = 14,
    /// The record is not one that a fit or a row call can give.
    Record = 15,
    /// The column is not in the picture, the rows have their last one first, or not all of them are drawn.
    Upright = 16,
    /// The picture of a page is wider than [`crate::MAX_PAGE_WIDTH`].
    PageWidth = 17,
    /// The page has not 81 bytes for each drawn row. [`crate::Picture::page`] makes its own, so it is not refused by this.
    PageLength = 18,
    /// A side of a row's tape has neighbouring runs of one symbol, or its outermost run is blank. [`crate::Tape::join`] mends that.
    Unjoined = 19,
    /// There is no memory for an answer of that length.
    Memory,
}

impl Refusal {
    /// Those of the rules, by their numbers.
    pub const ALL: [Self; 19] = [
        Self::Size,
        Self::Symbols,
        Self::Position,
        Self::Reversed,
        Self::Heads,
        Self::Cells,
        Self::IndexLength,
        Self::StoreLength,
        Self::TalliesLength,
        Self::OutputLength,
        Self::Runs,
        Self::Reach,
        Self::Swept,
        Self::Complete,
        Self::Record,
        Self::Upright,
        Self::PageWidth,
        Self::PageLength,
        Self::Unjoined,
    ];

    /// The number in the rules; none for [`Refusal::Memory`].
    pub const fn number(self) -> Option<u32> {
        match self {
            Self::Memory => None,
            numbered => Some(numbered as u32),
        }
    }

    /// What a call answers by a number: 0 is no refusal.
    pub(crate) fn check(number: u32) -> Result<(), Self> {
        if number == 0 {
            return Ok(());
        }
        let refusal = Self::ALL.into_iter().find(|refusal| refusal.number() == Some(number));
        Err(refusal.expect("a number of the rules"))
    }

    const fn sentence(self) -> &'static str {
        match self {
            Self::Size => "the picture must be 1 to 4096 pixels wide and high",
            Self::Symbols => "the alphabet must have 1 to 64 symbols",
            Self::Position => "a position must be within 2^62 cells of the origin",
            Self::Reversed => "a pair of positions must have its low end first",
            Self::Heads => "there must be at least one head, and no more than the rows that have room",
            Self::Cells => "bins must cover at most 2^50 cells",
            Self::IndexLength => "the index must have one byte for each pixel",
            Self::StoreLength => "the store must have one byte for each cell of each row, and none in bins",
            Self::TalliesLength => "the tallies must be one for each bin, and none in cells",
            Self::OutputLength => "the colours must have four bytes for each byte of the index",
            Self::Runs => "a run must have at least one cell, and each symbol must be one of the alphabet",
            Self::Reach => "the tape must stay within 2^62 cells of the origin",
            Self::Swept => "a swept pair must be within 2^62 cells of the origin, low end first, in an overview",
            Self::Complete => "all rows are drawn already",
            Self::Record => "the record must be that of a fitted picture",
            Self::Upright => {
                "an upright must be in a column of the picture, over rows that are drawn, the first one first"
            }
            Self::PageWidth => "a page must be of a picture at most 59 pixels wide",
            Self::PageLength => "a page must have 81 bytes for each drawn row",
            Self::Unjoined => "neighbouring runs must differ in symbol, and the outermost run must not be blank",
            Self::Memory => "there must be memory for an answer of that length",
        }
    }
}

impl fmt::Display for Refusal {
    fn fmt(&self, f: &mut fmt::Formatter<'_>) -> fmt::Result {
        f.write_str(self.sentence())
    }
}

impl Error for Refusal {}

#[cfg(test)]
mod tests {
    use super::Refusal;

    #[test]
    fn numbers_and_refusals_lead_to_each_other() {
        assert_eq!(Refusal::check(0), Ok(()));
        for (number, refusal) in (1..=19).zip(Refusal::ALL) {
            assert_eq!(refusal.number(), Some(number));
            assert_eq!(Refusal::check(number), Err(refusal));
        }
    }
}
