//! What the original's files name of its tape.rs, which is not at hand: the trait that `RunTape` implements, and the
//! tape of the dense simulator, which no reference function runs.

use core::ops::RangeInclusive;

use crate::symbol::{Dir, Symbol};

pub trait TapeView {
    fn head(&self) -> i64;
    fn get(&self, pos: i64) -> Symbol;
    fn non_blank(&self) -> Option<RangeInclusive<i64>>;
    fn count_non_blank(&self) -> u64;
    fn window(&self, from: i64, len: usize) -> Vec<Symbol>;
}

#[derive(Clone, Debug)]
pub struct Tape {
    pub(crate) cells: Vec<Symbol>,
    pub(crate) head: usize,
    pub(crate) touched: (i64, i64),
}

impl Tape {
    pub fn with_input(_: &[Symbol]) -> Self {
        not_at_hand()
    }

    pub fn blank() -> Self {
        not_at_hand()
    }

    pub fn read(&self) -> Symbol {
        not_at_hand()
    }

    pub fn write(&mut self, _: Symbol) {
        not_at_hand()
    }

    pub fn shift(&mut self, _: Dir) {
        not_at_hand()
    }

    pub fn head(&self) -> i64 {
        not_at_hand()
    }

    pub fn get(&self, _: i64) -> Symbol {
        not_at_hand()
    }

    pub fn position(&self, _: usize) -> i64 {
        not_at_hand()
    }

    pub fn find_non_blank(&self, _: i64, _: Dir) -> Option<i64> {
        not_at_hand()
    }
}

fn not_at_hand() -> ! {
    unreachable!("the dense tape is declared here and not defined")
}
