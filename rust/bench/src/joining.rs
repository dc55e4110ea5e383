//! Joining the runs of a tape, beside the original's `push` of the same runs onto empty sides.

use std::hint::black_box;

use random::Rng;
use reference::Stack;

use crate::ffi;
use crate::measure::{seconds, self_timed};

pub fn run() {
    println!("## Joining a tape\n");
    println!("| neighbours of one symbol | runs | left over | ours | Rust | ratio |");
    println!("|---|---|---|---|---|---|");
    for runs in [1000, 100_000] {
        for (name, of_four) in
            [("none", 0), ("every second, at random", 2), ("three of four, at random", 3), ("all", 4)]
        {
            row(name, &tape(runs, of_four));
        }
    }
    println!();
}

/// Half of the runs on each side, of 1 to 17 cells; of four runs so many have the symbol of the one before, at random.
fn tape(runs: u64, of_four: u64) -> ffi::Tape {
    let mut rng = Rng::of_kind(1, "joining");
    let mut side = || {
        let mut symbol = 1;
        let mut run = |at: u64| {
            symbol ^= u8::from(rng.below(4) >= of_four);
            (symbol, 1 + at * 7 % 17)
        };
        (0..runs / 2).map(&mut run).unzip()
    };
    ffi::Tape { symbols: 2, head: 0, cur: 1, left: side(), right: side() }
}

fn row(name: &str, tape: &ffi::Tape) {
    let mut joined = tape.clone();
    let mut freed = [0; 2];
    let mut stacks = [Stack::default(), Stack::default()];
    let measured = self_timed([
        &mut || {
            joined.copy_from(tape);
            seconds(|| freed = ffi::join(black_box(&mut joined)))
        },
        &mut || {
            seconds(|| {
                stacks = [&tape.left, &tape.right].map(|(symbols, lengths)| {
                    let mut stack = Stack::default();
                    stack.push_all(black_box(symbols), black_box(lengths));
                    stack
                });
            })
        },
    ]);
    let mut left_over = 0;
    for ((side, freed), stack) in [&joined.left, &joined.right].into_iter().zip(freed).zip(&stacks) {
        let runs = side.0.len() - freed as usize;
        let ours = side.0.iter().copied().zip(side.1.iter().copied()).take(runs);
        assert!(ours.eq(stack.runs()), "the sides join alike");
        left_over += runs;
    }
    println!("| {name} | {} | {left_over} | {}", tape.left.0.len() + tape.right.0.len(), measured.cells());
}
