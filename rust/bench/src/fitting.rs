//! The fits of a picture of 4096 × 4096 pixels: the grid alone, without the memory to draw in.

use std::hint::black_box;

use reference::{Exact, Overview, Pair, Picture};

use crate::ffi;
use crate::measure::{Measured, measure};
use crate::picture;

const SIDE: u32 = 4096;

pub fn run() {
    println!("## Fitting {SIDE} × {SIDE}\n");
    println!("| fit | heads | ours | Rust | ratio |");
    println!("|---|---|---|---|---|");
    for (name, cell_px, written) in [
        ("exact, size 1 given", Some(1), (0, 99)),
        ("exact, size 8 found", None, (0, 99)),
        ("exact, size 1 found", None, (0, 3999)),
        ("exact, bins", None, (0, 9999)),
    ] {
        for count in [10, 4096] {
            println!("| {name} | {count} | {}", exact(cell_px, written, &heads(count)).cells());
        }
    }
    for (name, extent) in [("overview, cells", (0, 99)), ("overview, bins", (0, 9999))] {
        println!("| {name} | none | {}", overview(&Overview { total: 47_176_870, extent }).cells());
    }
    println!();
}

/// A head that goes to and fro over 100 cells.
fn heads(count: i64) -> Vec<i64> {
    (0..count).map(|row| (row % 198 - 99).abs()).collect()
}

fn exact(cell_px: Option<u32>, written: Pair, heads: &[i64]) -> Measured<2> {
    let order = Exact { first_step: 0, cell_px, heads, written: Some(written), halted: false };
    let original = Picture::exact_undrawn(SIDE, SIDE, 2, &order);
    let mut ours = [0; archives::RECORD_WORDS];
    let measured = measure([&mut || ffi::fit_exact(SIDE, black_box(&order), black_box(&mut ours)), &mut || {
        black_box(&original).refit_exact(black_box(&order));
    }]);
    assert_eq!(ours, picture::record(&original), "the sides fit alike");
    measured
}

fn overview(order: &Overview) -> Measured<2> {
    let original = Picture::overview_undrawn(SIDE, SIDE, 2, order);
    let mut ours = [0; archives::RECORD_WORDS];
    let measured = measure([&mut || ffi::fit_overview(SIDE, black_box(order), black_box(&mut ours)), &mut || {
        black_box(&original).refit_overview(black_box(order));
    }]);
    assert_eq!(ours, picture::record(&original), "the sides fit alike");
    measured
}
