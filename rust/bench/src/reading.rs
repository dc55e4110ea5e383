//! `get` and `window` on tapes of many runs, at the far end of the longer search and next to the head.

use std::hint::black_box;

use crate::ffi;
use crate::measure::{Measured, measure};

const WINDOW: usize = 4096;

pub fn run() {
    println!("## Reading a tape\n");
    println!("| call | runs | ours | Rust | ratio |");
    println!("|---|---|---|---|---|");
    for runs in [10, 1000, 100_000] {
        let tape = tape(runs);
        let far = -(tape.left.1.iter().sum::<u64>() as i64);
        get("get, one cell from the head", &tape, -1);
        get("get, at the far end", &tape, far);
        window("window of 4096 cells around the head", &tape, -(WINDOW as i64) / 2);
        window("window of 4096 cells at the far end", &tape, far);
    }
    println!();
}

/// Half of the runs on each side, of 1 to 17 cells.
fn tape(runs: u64) -> ffi::Tape {
    let side = || (0..runs / 2).map(|run| ((run % 2) as u8, 1 + run * 7 % 17)).unzip();
    ffi::Tape { symbols: 2, head: 0, cur: 1, left: side(), right: side() }
}

fn get(call: &str, tape: &ffi::Tape, position: i64) {
    let original = tape.original();
    let (mut found, mut wanted) = (0, 0);
    let measured = measure([&mut || found = black_box(ffi::get(tape, black_box(position))), &mut || {
        wanted = black_box(original.get(black_box(position)))
    }]);
    assert_eq!(found, wanted, "the sides read alike");
    row(call, tape, &measured);
}

fn window(call: &str, tape: &ffi::Tape, from: i64) {
    let original = tape.original();
    let mut out = vec![0; WINDOW];
    let measured = measure([&mut || ffi::window(tape, black_box(from), black_box(&mut out)), &mut || {
        drop(black_box(original.window(black_box(from), WINDOW)))
    }]);
    assert_eq!(out, original.window(from, WINDOW), "the sides read alike");
    row(call, tape, &measured);
}

fn row(call: &str, tape: &ffi::Tape, measured: &Measured<2>) {
    let runs = tape.left.1.len() + tape.right.1.len();
    println!("| {call} | {runs} | {}", measured.cells());
}
