//! The Rust original of the drawing core, opened for comparison. Its files are copied by build.rs, unchanged but for one
//! line, by which the least ink of a row is 8; tape.rs and builder.rs declare what they lean on and is not at hand;
//! harness.rs and pushing.rs reach what is private. Nothing in this crate computes an answer: it hands arguments in and
//! results out, in plain numbers.

extern crate alloc;
// In the original turing-core is a crate of its own; here both stand in this one.
extern crate self as turing_core;

include!(concat!(env!("OUT_DIR"), "/original.rs"));

#[allow(dead_code, reason = "declared for the dense simulator, which is not run")]
mod builder;
#[allow(dead_code, reason = "declared for the dense simulator, which is not run")]
mod tape;

mod caught;

// The names that the original's crate roots give out.
use checkpoint::Engine;
use machine::Machine;
use outcome::{NonHaltProof, Outcome};
use rle::{ChainSim, Run, RunTape};
use symbol::Symbol;
use tape::TapeView;

pub use caught::{Panicked, caught};
pub use palette::{Palette, Rgb};
pub use rle::pushing::Stack;
pub use spacetime::harness::{
    Bins, Columns, Exact, Grid, Located, Overview, Pair, Picture, RowLines, Transition, colour_table, ink_shade, rgba,
    symbol_shade, tally_shade,
};
pub use spacetime::{SpaceTimeMode, SpaceTimeRequest};

/// A tape with the runs that it is given, joined or not.
#[derive(Clone, Debug)]
pub struct Tape(RunTape);

impl Tape {
    /// Runs are symbol and length, the one nearest the head last.
    pub fn new(
        head: i64,
        cur: u8,
        left: impl IntoIterator<Item = (u8, u64)>,
        right: impl IntoIterator<Item = (u8, u64)>,
    ) -> Self {
        Self(RunTape {
            left: left.into_iter().map(run).collect(),
            cur: Symbol::new(cur),
            right: right.into_iter().map(run).collect(),
            head,
        })
    }

    pub fn get(&self, position: i64) -> u8 {
        self.0.get(position).get()
    }

    pub fn window(&self, from: i64, length: usize) -> Vec<u8> {
        self.0.window(from, length).into_iter().map(Symbol::get).collect()
    }
}

fn run((symbol, len): (u8, u64)) -> Run {
    Run { symbol: Symbol::new(symbol), len }
}
