//! The tallies of one row: ours, the original's, and our loop in plain Rust with a division a run and with a cursor.

use std::hint::black_box;

use reference::Bins;

use crate::ffi;
use crate::measure::measure;

const WIDTH: usize = 4096;

/// Position 0 in its offset form.
const ZERO: u64 = 1 << 63;

/// The most runs that the probe takes at once. Every side clears its tallies before each so many runs.
const CHUNK: usize = 4096;

pub fn run() {
    println!("## Tallies of one row, {WIDTH} bins\n");
    println!("| cells | runs | ours | Rust | ratio | our loop in Rust: division | our loop in Rust: cursor |");
    println!("|---|---|---|---|---|---|---|");
    for cells in [5000, 1 << 50] {
        for runs in [10, 1000, 100_000] {
            row(cells, &tape_order(cells, runs));
        }
    }
    println!();
}

fn row(cells: u64, runs: &[(u64, u64)]) {
    let (low, high): (Vec<u64>, Vec<u64>) = runs.iter().map(|&(lo, hi)| (ZERO + lo, ZERO + hi)).unzip();
    let chunks = || low.chunks(CHUNK).zip(high.chunks(CHUNK));
    let bins = Bins::new(cells, WIDTH as u32);
    let mut words = vec![0u64; WIDTH];
    let mut wide = vec![0u128; WIDTH];
    let mut divided = vec![0u64; WIDTH];
    let mut walked = vec![0u64; WIDTH];
    let measured = measure([
        &mut || {
            for (low, high) in chunks() {
                assert_eq!(ffi::tallies(black_box(&mut words), ZERO, cells, low, high), 0);
            }
        },
        &mut || {
            for chunk in runs.chunks(CHUNK) {
                black_box(&mut wide).fill(0);
                let mut cursor = 0;
                for &(lo, hi) in chunk {
                    bins.add(&mut wide, &mut cursor, lo, hi);
                }
            }
        },
        &mut || {
            for chunk in runs.chunks(CHUNK) {
                black_box(&mut divided).fill(0);
                for &(lo, hi) in chunk {
                    by_division(&mut divided, cells, lo, hi);
                }
            }
        },
        &mut || {
            for chunk in runs.chunks(CHUNK) {
                black_box(&mut walked).fill(0);
                let mut cursor = (0, 0);
                for &(lo, hi) in chunk {
                    by_cursor(&mut walked, &mut cursor, cells, lo, hi);
                }
            }
        },
    ]);
    let original: Vec<u64> = wide.iter().map(|&tally| tally as u64).collect();
    assert!(words == original && words == divided && words == walked, "the sides tally alike");
    let cells = if cells == 1 << 50 { "2^50".to_string() } else { cells.to_string() };
    let [ours, theirs, division, cursor] = std::array::from_fn(|side| measured.time(side));
    let ratio = measured.ratio(0, 1);
    println!("| {cells} | {} | {ours} | {theirs} | {ratio} | {division} | {cursor} |", runs.len());
}

/// Written runs with as long gaps between them, in the order of a tape whose head stands in the middle: outwards to the
/// left, then outwards to the right. Where the window has no room for so many, the same runs come again.
fn tape_order(cells: u64, runs: usize) -> Vec<(u64, u64)> {
    let apart = (runs as u64).min(cells / 2);
    let step = cells / apart;
    let at = |run: u64| (run * step, run * step + step.div_ceil(2) - 1);
    let middle = apart / 2;
    let once = (0..middle).rev().chain(middle..apart).map(at);
    once.collect::<Vec<_>>().into_iter().cycle().take(runs).collect()
}

/// The loop of the crate columns.
fn by_division(tallies: &mut [u64], cells: u64, lo: u64, hi: u64) {
    let width = tallies.len() as u64;
    let first = lo * width / cells;
    add_from(tallies, first as usize, first * cells, cells, lo, hi);
}

/// The same from a bin of the last run and its left border, as the original finds its first bin.
fn by_cursor(tallies: &mut [u64], cursor: &mut (usize, u64), cells: u64, lo: u64, hi: u64) {
    let start = lo * tallies.len() as u64;
    let (bin, border) = cursor;
    while *border > start {
        *bin -= 1;
        *border -= cells;
    }
    while *border + cells <= start {
        *bin += 1;
        *border += cells;
    }
    add_from(tallies, *bin, *border, cells, lo, hi);
}

fn add_from(tallies: &mut [u64], bin: usize, left: u64, cells: u64, lo: u64, hi: u64) {
    let width = tallies.len() as u64;
    let end = hi * width + width;
    let mut at = lo * width;
    let mut border = left + cells;
    for tally in &mut tallies[bin..] {
        if at >= end {
            break;
        }
        let stop = border.min(end);
        *tally += stop - at;
        at = stop;
        border += cells;
    }
}
