//! A tape as the C interface is handed it, sound or not.

use std::fmt;

use crate::case::{Fields, joined};

/// L of the rules: positions are within plus and minus this.
pub const L: i64 = 1 << 62;

/// The two lists of a side, nearest the head last. In a damaged one they differ in length.
#[derive(Clone, Debug, Default, PartialEq, Eq)]
pub struct Side {
    pub symbols: Vec<u8>,
    pub lengths: Vec<u64>,
}

/// A tape and the count of its alphabet.
#[derive(Clone, Debug, PartialEq, Eq)]
pub struct Tape {
    pub symbols: u32,
    pub head: i64,
    pub cur: u8,
    pub left: Side,
    pub right: Side,
}

impl Side {
    pub fn new(runs: &[(u8, u64)]) -> Self {
        let (symbols, lengths) = runs.iter().copied().unzip();
        Self { symbols, lengths }
    }

    pub fn runs(&self) -> impl DoubleEndedIterator<Item = (u8, u64)> + ExactSizeIterator {
        self.symbols.iter().copied().zip(self.lengths.iter().copied())
    }

    pub fn total(&self) -> i128 {
        self.lengths.iter().map(|&length| i128::from(length)).sum()
    }

    /// The side less one run, or with one run shorter or blank.
    fn smaller(&self) -> Vec<Self> {
        let mut sides = Vec::new();
        for at in 0..self.symbols.len().max(self.lengths.len()) {
            let mut less = self.clone();
            drop_at(&mut less.symbols, at);
            drop_at(&mut less.lengths, at);
            sides.push(less);
        }
        for (at, &length) in self.lengths.iter().enumerate() {
            for shorter in smaller_number(length) {
                let mut less = self.clone();
                less.lengths[at] = shorter;
                sides.push(less);
            }
        }
        for (at, &symbol) in self.symbols.iter().enumerate() {
            for lower in smaller_number(u64::from(symbol)) {
                let mut less = self.clone();
                less.symbols[at] = lower as u8;
                sides.push(less);
            }
        }
        sides
    }
}

impl Tape {
    pub fn read(fields: &Fields) -> Result<Self, String> {
        Ok(Self {
            symbols: fields.number("symbols")?,
            head: fields.number("head")?,
            cur: fields.number("cur")?,
            left: Side { symbols: fields.numbers("left_symbols")?, lengths: fields.numbers("left_lengths")? },
            right: Side { symbols: fields.numbers("right_symbols")?, lengths: fields.numbers("right_lengths")? },
        })
    }

    /// Smaller tapes with `position` as it is, tapes moved nearer to position 0 with `position` moved along, and this
    /// tape with `position` nearer to 0.
    pub fn smaller(&self, position: i64) -> Vec<(Self, i64)> {
        let moved = |head: i64| {
            let position = position.checked_add(head.checked_sub(self.head)?)?;
            Some((Self { head, ..self.clone() }, position))
        };
        let lesser = self.lesser().into_iter().map(|tape| (tape, position));
        let moved = smaller_position(self.head).into_iter().filter_map(moved);
        let nearer = smaller_position(position).into_iter().map(|position| (self.clone(), position));
        lesser.chain(moved).chain(nearer).collect()
    }

    /// The tape with one of its parts smaller.
    fn lesser(&self) -> Vec<Self> {
        let left = self.left.smaller().into_iter().map(|left| Self { left, ..self.clone() });
        let right = self.right.smaller().into_iter().map(|right| Self { right, ..self.clone() });
        let cur = smaller_number(u64::from(self.cur)).into_iter().map(|cur| Self { cur: cur as u8, ..self.clone() });
        let head = smaller_position(self.head).into_iter().map(|head| Self { head, ..self.clone() });
        let symbols = smaller_number(u64::from(self.symbols)).into_iter();
        let symbols = symbols.map(|symbols| Self { symbols: symbols as u32, ..self.clone() });
        left.chain(right).chain(cur).chain(head).chain(symbols).collect()
    }
}

impl fmt::Display for Tape {
    fn fmt(&self, f: &mut fmt::Formatter<'_>) -> fmt::Result {
        write!(f, "symbols={} head={} cur={}", self.symbols, self.head, self.cur)?;
        for (name, side) in [("left", &self.left), ("right", &self.right)] {
            let (symbols, lengths) = (joined(&side.symbols), joined(&side.lengths));
            write!(f, " {name}_symbols={symbols} {name}_lengths={lengths}")?;
        }
        Ok(())
    }
}

fn drop_at<T>(list: &mut Vec<T>, at: usize) {
    if at < list.len() {
        list.remove(at);
    }
}

/// Zero, then numbers ever closer to `number` from below.
pub fn smaller_number(number: u64) -> Vec<u64> {
    if number == 0 {
        return Vec::new();
    }
    let steps = (1..64).map(|bits| number >> bits).take_while(|&step| step > 0);
    let mut numbers: Vec<u64> = [0].into_iter().chain(steps.map(|step| number - step)).chain([number - 1]).collect();
    numbers.dedup();
    numbers
}

/// The same towards position 0, from either side.
pub fn smaller_position(position: i64) -> Vec<i64> {
    let nearer = smaller_number(position.unsigned_abs());
    nearer.into_iter().map(|distance| distance as i64 * position.signum()).collect()
}
