//! The tape that the stepper works on. Its runs are kept as the library takes them, so a row is drawn from them as they are,
//! and a run takes nine bytes.

use spacetime::{LentSide, LentTape, Pair};

/// A tape: the head's position, the symbol under it, and the runs on its two sides.
#[derive(Clone, Debug, Default)]
pub struct Tape {
    pub left: Side,
    pub cur: u8,
    pub right: Side,
    pub head: i64,
}

impl Tape {
    /// A word from position 0 on, and the head on its first symbol.
    pub fn with_input(word: &[u8]) -> Self {
        let mut tape = Self { cur: word.first().copied().unwrap_or(0), ..Self::default() };
        for &symbol in word.iter().skip(1).rev() {
            tape.right.push(symbol, 1);
        }
        tape
    }

    pub fn lend(&self) -> LentTape<'_> {
        LentTape { head: self.head, cur: self.cur, left: self.left.lend(), right: self.right.lend() }
    }

    /// The number of runs on both sides.
    pub fn runs(&self) -> usize {
        self.left.lengths.len() + self.right.lengths.len()
    }

    /// The outermost written cells.
    pub fn written(&self) -> Option<Pair> {
        let here = (self.cur != 0).then_some((self.head, self.head));
        let left = self.left.written().map(|(near, far)| (self.head - far, self.head - near));
        let right = self.right.written().map(|(near, far)| (self.head + near, self.head + far));
        [here, left, right].into_iter().flatten().reduce(|pair, by| widened(Some(pair), by))
    }
}

/// The least pair that holds both.
pub fn widened(pair: Option<Pair>, by: Pair) -> Pair {
    pair.map_or(by, |(low, high)| (low.min(by.0), high.max(by.1)))
}

/// The runs of one side, nearest the head last: as many symbols as lengths.
#[derive(Clone, Debug, Default)]
pub struct Side {
    symbols: Vec<u8>,
    lengths: Vec<u64>,
}

impl Side {
    fn lend(&self) -> LentSide<'_> {
        LentSide { symbols: &self.symbols, lengths: &self.lengths }
    }

    /// The run nearest the head: its symbol and its cells.
    pub fn nearest(&self) -> Option<(u8, u64)> {
        self.symbols.last().copied().zip(self.lengths.last().copied())
    }

    /// Puts cells nearest the head: joined with an equal run, and left out where they are blank and nothing lies beyond.
    pub fn push(&mut self, symbol: u8, cells: u64) {
        match (self.symbols.last(), self.lengths.last_mut()) {
            (Some(&top), Some(length)) if top == symbol => *length += cells,
            (None, _) if symbol == 0 => {}
            _ => {
                self.symbols.push(symbol);
                self.lengths.push(cells);
            }
        }
    }

    /// Takes cells from the run nearest the head, which has as many; where there is no run, the cells are blank.
    pub fn take(&mut self, cells: u64) {
        if let Some(length) = self.lengths.last_mut() {
            *length -= cells;
            if *length == 0 {
                self.lengths.pop();
                self.symbols.pop();
            }
        }
    }

    /// Takes the cell nearest the head.
    pub fn pop(&mut self) -> u8 {
        let symbol = self.symbols.last().copied().unwrap_or(0);
        self.take(1);
        symbol
    }

    /// The distances of the nearest and the farthest written cell from the head.
    fn written(&self) -> Option<(i64, i64)> {
        let farthest = self.symbols.iter().position(|&symbol| symbol != 0)?;
        let blank = self.symbols.iter().rev().take_while(|&&symbol| symbol == 0).count();
        let cells = |runs: &[u64]| runs.iter().sum::<u64>().cast_signed();
        Some((cells(&self.lengths[self.lengths.len() - blank..]) + 1, cells(&self.lengths[farthest..])))
    }

    #[cfg(test)]
    pub fn of(runs: &[(u8, u64)]) -> Self {
        let (symbols, lengths) = runs.iter().copied().unzip();
        Self { symbols, lengths }
    }

    #[cfg(test)]
    pub fn iter(&self) -> impl Iterator<Item = (u8, u64)> {
        self.symbols.iter().copied().zip(self.lengths.iter().copied())
    }
}

#[cfg(test)]
mod tests {
    use super::{Side, Tape};

    #[test]
    fn written_cells_end_at_written_runs() {
        let written = |left: &[(u8, u64)], cur, right: &[(u8, u64)]| {
            Tape { left: Side::of(left), cur, right: Side::of(right), head: 10 }.written()
        };
        assert_eq!(written(&[], 0, &[]), None);
        assert_eq!(written(&[(0, 5)], 0, &[(0, 1)]), None);
        assert_eq!(written(&[], 1, &[]), Some((10, 10)));
        assert_eq!(written(&[(2, 2), (0, 3)], 0, &[]), Some((5, 6)));
        assert_eq!(written(&[], 0, &[(0, 9), (2, 2), (0, 3)]), Some((14, 15)));
        assert_eq!(written(&[(2, 1)], 0, &[(2, 4)]), Some((9, 14)));
    }

    #[test]
    fn a_word_starts_under_the_head() {
        let tape = Tape::with_input(&[2, 1, 1, 0, 1, 0]);
        assert_eq!((tape.head, tape.cur), (0, 2));
        assert_eq!(tape.lend().window(3, -1, 8), Ok(vec![0, 2, 1, 1, 0, 1, 0, 0]));
        assert_eq!(tape.right.iter().collect::<Vec<_>>(), [(1, 1), (0, 1), (1, 2)], "no run for the blank at the end");
        assert_eq!(Tape::with_input(&[]).runs(), 0);
    }
}
