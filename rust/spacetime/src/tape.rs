//! A tape as two stacks of runs around the head's cell.

use crate::{Refusal, ffi};

/// A block of equal symbols.
#[derive(Copy, Clone, Debug, PartialEq, Eq, Hash)]
pub struct Run {
    /// The symbol of each cell, below the alphabet's count.
    pub symbol: u8,
    /// The number of cells, at least 1.
    pub len: u64,
}

/// A tape that owns its runs. Symbol 0 is blank, and so is all that lies outside the runs. Neighbouring runs may hold equal
/// symbols.
///
/// ```
/// use spacetime::{Run, Tape};
///
/// let tape = Tape { head: 5, cur: 2, right: vec![Run { symbol: 1, len: 3 }], ..Tape::default() };
/// assert_eq!(tape.get(3, 8), Ok(1));
/// assert_eq!(tape.window(3, 4, 6), Ok(vec![0, 2, 1, 1, 1, 0]));
/// ```
#[derive(Clone, Debug, PartialEq, Eq, Default)]
pub struct Tape {
    /// The runs on the head's left, nearest the head last.
    pub left: Vec<Run>,
    /// The symbol under the head.
    pub cur: u8,
    /// The runs on the head's right, nearest the head last.
    pub right: Vec<Run>,
    /// The head's position.
    pub head: i64,
}

impl Tape {
    /// The symbol at a position. `symbols` is the alphabet's count. Refusals: as [`LentTape::get`].
    pub fn get(&self, symbols: u32, position: i64) -> Result<u8, Refusal> {
        Split::of(self).lend(self).get(symbols, position)
    }

    /// The symbols at `length` positions from `from` on. Refusals: as [`LentTape::window`].
    pub fn window(&self, symbols: u32, from: i64, length: usize) -> Result<Vec<u8>, Refusal> {
        Split::of(self).lend(self).window(symbols, from, length)
    }
}

/// The runs of one side of a tape, nearest the head last: their symbols, and their lengths.
#[derive(Copy, Clone, Debug, PartialEq, Eq, Default)]
pub struct LentSide<'a> {
    /// The symbol of each run, below the alphabet's count.
    pub symbols: &'a [u8],
    /// The cells of each run, at least 1; as many as there are symbols.
    pub lengths: &'a [u64],
}

/// A tape whose runs are lent as the library takes them, so that none is copied; [`Tape`] is the one that owns its runs.
///
/// ```
/// use spacetime::{LentSide, LentTape};
///
/// let right = LentSide { symbols: &[1], lengths: &[3] };
/// let tape = LentTape { head: 5, cur: 2, right, ..LentTape::default() };
/// assert_eq!(tape.window(3, 4, 6), Ok(vec![0, 2, 1, 1, 1, 0]));
/// ```
#[derive(Copy, Clone, Debug, PartialEq, Eq, Default)]
pub struct LentTape<'a> {
    /// The head's position.
    pub head: i64,
    /// The symbol under the head.
    pub cur: u8,
    /// The runs on the head's left.
    pub left: LentSide<'a>,
    /// The runs on the head's right.
    pub right: LentSide<'a>,
}

impl LentTape<'_> {
    /// The symbol at a position. `symbols` is the alphabet's count.
    ///
    /// Refusals: [`Refusal::Symbols`] where that is not 1 to 64, [`Refusal::Runs`], [`Refusal::Reach`].
    pub fn get(self, symbols: u32, position: i64) -> Result<u8, Refusal> {
        ffi::get(symbols, self, position)
    }

    /// The symbols at `length` positions from `from` on; places past 2^63 − 1 are blank.
    ///
    /// Refusals: those of [`LentTape::get`], then [`Refusal::Memory`] where there is no memory for so many symbols.
    pub fn window(self, symbols: u32, from: i64, length: usize) -> Result<Vec<u8>, Refusal> {
        self.window_into(symbols, from, &mut [])?;
        let mut out = Vec::new();
        out.try_reserve_exact(length).map_err(|_| Refusal::Memory)?;
        out.resize(length, 0);
        self.window_into(symbols, from, &mut out).map(|()| out)
    }

    /// Writes the symbols at the positions from `from` on to `out`, one for each of its places. Refusals: those of
    /// [`LentTape::get`].
    pub fn window_into(self, symbols: u32, from: i64, out: &mut [u8]) -> Result<(), Refusal> {
        ffi::window(symbols, self, from, out)
    }
}

/// The runs of a tape as the library takes them: symbols and lengths apart.
#[derive(Clone, Debug, Default)]
pub(crate) struct Split {
    left: Side,
    right: Side,
}

#[derive(Clone, Debug, Default)]
struct Side {
    symbols: Vec<u8>,
    lengths: Vec<u64>,
}

impl Split {
    fn of(tape: &Tape) -> Self {
        let mut split = Self::default();
        split.fill(tape);
        split
    }

    /// Takes the runs of another tape, in the memory at hand.
    pub fn fill(&mut self, tape: &Tape) {
        self.left.fill(&tape.left);
        self.right.fill(&tape.right);
    }

    /// The tape whose runs these are, ready for a call.
    pub fn lend<'a>(&'a self, tape: &Tape) -> LentTape<'a> {
        LentTape { head: tape.head, cur: tape.cur, left: self.left.lend(), right: self.right.lend() }
    }
}

impl Side {
    fn fill(&mut self, runs: &[Run]) {
        self.symbols.clear();
        self.symbols.extend(runs.iter().map(|run| run.symbol));
        self.lengths.clear();
        self.lengths.extend(runs.iter().map(|run| run.len));
    }

    fn lend(&self) -> LentSide<'_> {
        LentSide { symbols: &self.symbols, lengths: &self.lengths }
    }
}
