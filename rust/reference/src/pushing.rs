//! The child module of the original's rle.rs (build.rs declares it there), through which its private `push` is reached.

#![warn(unused, clippy::all)]

use super::{Run, Symbol, push};

/// A side onto which runs are pushed one by one, the outermost first.
#[derive(Clone, Debug, Default)]
pub struct Stack(Vec<Run>);

impl Stack {
    /// The original's `push` of each run, and nothing else, to be timed.
    pub fn push_all(&mut self, symbols: &[u8], lengths: &[u64]) {
        for (&symbol, &len) in symbols.iter().zip(lengths) {
            push(&mut self.0, Symbol::new(symbol), len);
        }
    }

    /// The runs that stand there, nearest the head last.
    pub fn runs(&self) -> impl ExactSizeIterator<Item = (u8, u64)> {
        self.0.iter().map(|run| (run.symbol.get(), run.len))
    }
}
