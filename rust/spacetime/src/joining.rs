//! Joining a tape's runs.

use crate::ffi::{self, Written};
use crate::{Refusal, Run, Tape};

impl Tape {
    /// Joins the runs of both sides: neighbours of one symbol become one run, and a blank run at the outer end goes. Every position
    /// keeps its symbol. Answers how many runs fewer there are, left and right; a refused tape keeps its runs. `symbols` is the
    /// alphabet's count.
    ///
    /// ```
    /// use spacetime::{Run, Tape};
    ///
    /// let run = |symbol, len| Run { symbol, len };
    /// let mut tape = Tape { left: vec![run(0, 3), run(1, 5), run(1, 6), run(0, 7)], ..Tape::default() };
    /// assert_eq!(tape.join(2), Ok((2, 0)));
    /// assert_eq!(tape.left, [run(1, 11), run(0, 7)]);
    /// ```
    pub fn join(&mut self, symbols: u32) -> Result<(u64, u64), Refusal> {
        let mut left = Apart::of(&self.left);
        let mut right = Apart::of(&self.right);
        let freed = ffi::join(symbols, self.head, self.cur, left.lend(), right.lend())?;
        left.put_back(&mut self.left, freed[0]);
        right.put_back(&mut self.right, freed[1]);
        Ok((freed[0], freed[1]))
    }
}

/// The runs of a side as they are rewritten: symbols and lengths apart.
struct Apart {
    symbols: Vec<u8>,
    lengths: Vec<u64>,
}

impl Apart {
    fn of(runs: &[Run]) -> Self {
        let (symbols, lengths) = runs.iter().map(|run| (run.symbol, run.len)).unzip();
        Self { symbols, lengths }
    }

    fn lend(&mut self) -> Written<'_> {
        Written { symbols: &mut self.symbols, lengths: &mut self.lengths }
    }

    /// Puts the runs that remain in the place of those that were taken apart.
    fn put_back(self, runs: &mut Vec<Run>, freed: u64) {
        runs.truncate(runs.len() - freed as usize);
        let remaining = self.symbols.into_iter().zip(self.lengths);
        runs.iter_mut().zip(remaining).for_each(|(run, (symbol, len))| *run = Run { symbol, len });
    }
}
