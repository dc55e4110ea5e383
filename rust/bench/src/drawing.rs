//! One row of a picture 4096 pixels wide, in bins and in cells, with all that a row call does.

use std::hint::black_box;

use reference::{Exact, Overview, Picture};

use crate::ffi;
use crate::measure::{Measured, measure};
use crate::picture::{self, DONE};

const WIDTH: u32 = 4096;

pub fn run() {
    println!("## One row, {WIDTH} pixels wide\n");
    println!("| columns | runs | ours | Rust | ratio |");
    println!("|---|---|---|---|---|");
    for (name, cells) in [("bins over 2^20 cells", 1 << 20), ("bins over 2^50 cells", 1 << 50)] {
        for runs in [10, 1000, 100_000] {
            println!("| {name} | {runs} | {}", row(one_row((WIDTH, 1), cells), &tape(cells, runs)).cells());
        }
    }
    for px in [1, 8] {
        let cells = i64::from(WIDTH / px);
        for runs in [10, 1000, 100_000] {
            println!("| cells, p {px} | {runs} | {}", row(cells_of(px), &tape(cells, runs)).cells());
        }
    }
    println!();
}

/// An overview of a run without steps: one row over the cells from 0 on.
pub fn one_row((width, height): (u32, u32), cells: i64) -> Picture {
    let order = Overview { total: 0, extent: (0, cells - 1) };
    Picture::overview(width, height, 2, &order).expect("a size that is taken")
}

/// An exact picture with one row, of the cells from 0 on.
fn cells_of(px: u32) -> Picture {
    let cells = i64::from(WIDTH / px);
    let order =
        Exact { first_step: 0, cell_px: Some(px), heads: &[cells / 2], written: Some((0, cells - 1)), halted: false };
    Picture::exact(WIDTH, px, 2, &order).expect("a size that is taken")
}

/// Runs of equal length, written in turns with blank, the outermost written, half of them on each side of a head in the
/// middle of the cells from 0 on. They fill these cells, or reach beyond them where there are more runs than cells.
pub fn tape(cells: i64, runs: i64) -> ffi::Tape {
    let length = (cells / runs).max(1).cast_unsigned();
    let side = || (0..runs / 2).map(|run| (((run + 1) % 2) as u8, length)).unzip();
    ffi::Tape { symbols: 2, head: cells / 2, cur: 1, left: side(), right: side() }
}

/// Times the first row's call.
pub fn row(mut picture: Picture, tape: &ffi::Tape) -> Measured<2> {
    picture.load(&tape.original());
    let mut ours = picture::beside(&picture);
    let measured = measure([
        &mut || {
            ours.record[DONE] = 0;
            black_box(ffi::row(black_box(&mut ours), black_box(tape), None));
        },
        &mut || black_box(&mut picture).draw_first(None),
    ]);
    assert!(ours.index == picture.index() && ours.store == picture.store(), "the sides draw alike");
    measured
}
