//! How the time of a row call grows with the runs, with the width and with the lines of a row.

use std::fs;

use crate::drawing::{one_row, row, tape};
use crate::measure::{Measured, figures, time};
use crate::plot::{self, Panel, Point};

/// The window of the bins.
const CELLS: i64 = 1 << 20;

const PLOT: &str = concat!(env!("CARGO_MANIFEST_DIR"), "/../../docs/cost.svg");

/// What is varied, and the measurements in its order.
type Series = (&'static str, &'static str, Vec<(u32, Measured<2>)>);

pub fn run() {
    let all = [runs(), widths(), lines()];
    println!("## How a row's time grows\n");
    println!("![The time of a row call, ours and the Rust's](cost.svg)\n");
    println!("| what grows | from | to | ours | Rust | ratio |");
    println!("|---|---|---|---|---|---|");
    all.iter().for_each(tell);
    println!();
    let panels = all.map(|(title, axis, measured)| Panel { title, axis, points: measured.iter().map(point).collect() });
    fs::write(PLOT, plot::svg(&panels)).expect("the folder docs can be written");
}

/// Bins 4096 pixels wide.
fn runs() -> Series {
    let counts = [10, 30, 100, 300, 1000, 3000, 10_000, 30_000, 100_000];
    let measured = counts.map(|runs| (runs, row(one_row((4096, 1), CELLS), &tape(CELLS, runs.into()))));
    ("4096 bins", "runs", measured.into())
}

fn widths() -> Series {
    let widths = [64, 128, 256, 512, 1024, 2048, 4096];
    let measured = widths.map(|width| (width, row(one_row((width, 1), CELLS), &tape(CELLS, 1000))));
    ("1000 runs, in bins", "width in pixels", measured.into())
}

/// 512 cells of 8 pixels each: a picture with one row has as many lines a row as lines, up to 8.
fn lines() -> Series {
    let lines = [1, 2, 3, 4, 5, 6, 7, 8];
    let measured = lines.map(|lines| (lines, row(one_row((4096, lines), 512), &tape(512, 100))));
    ("512 cells, 100 runs", "lines a row", measured.into())
}

/// A line of the table: the first and the last time of each side, and the least and the greatest ratio.
fn tell((title, axis, measured): &Series) {
    let ends = [&measured[0], &measured[measured.len() - 1]];
    let [(from, _), (to, _)] = ends;
    let times = |side| ends.map(|(_, measured)| time(measured.seconds(side))).join(" to ");
    let mut ratios: Vec<f64> = measured.iter().map(|(_, measured)| measured.times_as_long(0, 1)).collect();
    ratios.sort_by(f64::total_cmp);
    let ratios = [ratios[0], ratios[ratios.len() - 1]].map(figures).join(" to ");
    println!("| {axis} ({title}) | {from} | {to} | {} | {} | {ratios} |", times(0), times(1));
}

fn point((at, measured): &(u32, Measured<2>)) -> Point {
    Point { at: f64::from(*at), ours: measured.seconds(0), rust: measured.seconds(1) }
}
