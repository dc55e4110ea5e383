//! Bands of a picture, filled, copied and marked: a row call beside that of the version before, where its archive is linked,
//! and beside the original's `render_row`. Times are the least of their samples, and a ratio is that of two such times.

use std::hint::black_box;

use reference::{Exact, Pair, Picture};

use crate::drawing::{one_row, tape};
use crate::ffi;
use crate::measure::{Measured, figures, in_turns, measure, time};
use crate::picture::{self, DONE};

/// The widths of the second table.
const WIDTHS: [u32; 30] = [
    1, 2, 3, 5, 7, 8, 9, 11, 13, 15, 16, 17, 23, 31, 32, 33, 40, 47, 48, 61, 63, 64, 100, 128, 200, 640, 641, 1000,
    4093, 4096,
];

/// How often that table is measured, and how many samples a picture gets each time.
const PASSES: usize = 8;
const A_PASS: usize = 20;

pub fn run() {
    println!("## Bands by words\n");
    println!("| band | before | ours | Rust | ours / before | ours / Rust |");
    println!("|---|---|---|---|---|---|");
    for px in [1, 2, 3, 4, 5, 7, 8, 9, 12, 16, 17, 24, 32, 48, 64, 256] {
        let cells = i64::from(4096 / px);
        told(&format!("4096 × {px}, cells of {px}"), sized((4096, px), px), &tape(cells, 100.min(cells)), None);
    }
    for lines in [1, 2, 4] {
        told(&format!("4096 × {lines}, cells of 8"), one_row((4096, lines), 512), &tape(512, 100), None);
    }
    for width in [8, 9, 15, 16, 24, 31, 32, 40, 47, 48, 56, 61, 64, 100, 640] {
        let px = 8.min(width);
        let cells = i64::from(width / px);
        told(&format!("{width} × {px}, cells of {px}"), sized((width, px), px), &tape(cells, 2), None);
    }
    told("64 × 64, one cell of 64", sized((64, 64), 64), &tape(1, 2), None);
    for width in [8, 16, 61, 64] {
        told(&format!("{width} × 1, cells of 1"), one_row((width, 1), width.into()), &tape(width.into(), 4), None);
    }
    let blank = ffi::Tape { symbols: 2, head: 2048, cur: 0, left: <_>::default(), right: <_>::default() };
    for (name, tape) in [("all paper", blank), ("half paper", tape(4096, 1000)), ("no paper", tape(4096, 2))] {
        for (part, swept) in [("not swept", None), ("swept", Some((0, 4095))), ("swept 3..4092", Some((3, 4092)))] {
            told(&format!("4096 × 1, cells of 1, {name}, {part}"), one_row((4096, 1), 4096), &tape, swept);
        }
    }
    for (cells, width) in [(1 << 20, 4096), (1 << 20, 64), (1 << 20, 8)] {
        told(
            &format!("{width} × 1, bins, all swept"),
            one_row((width, 1), cells),
            &tape(cells, 10),
            Some((0, cells - 1)),
        );
    }
    println!();
    if ffi::BEFORE {
        widths();
    }
}

/// Many widths beside the version before, not swept and all swept: the ratios for each size of cells. A picture's samples are
/// spread over the whole run, so that a while in which the machine is busy meets a part of them.
fn widths() {
    println!("| cells of | pictures | least ratio | median | greatest | which is of | above 1.05 |");
    println!("|---|---|---|---|---|---|---|");
    let mut bands: Vec<Vec<Band>> = (1..=8).map(bands_of).collect();
    for _ in 0..PASSES {
        bands.iter_mut().flatten().for_each(Band::measure);
    }
    for (px, mut bands) in (1..).zip(bands) {
        bands.sort_by(|one, other| one.ratio().total_cmp(&other.ratio()));
        let [least, middle, greatest] = [0, bands.len() / 2, bands.len() - 1].map(|at| &bands[at]);
        let [low, median, high] = [least, middle, greatest].map(|band| figures(band.ratio()));
        let above = bands.iter().filter(|band| band.ratio() > 1.05).count();
        println!("| {px} | {} | {low} | {median} | {high} | {} | {above} |", bands.len(), greatest.name);
    }
    println!();
}

/// A band of one row, drawn by the version before and by ours, with the least seconds of each.
struct Band {
    name: String,
    tape: ffi::Tape,
    swept: Option<Pair>,
    old: ffi::Picture,
    ours: ffi::Picture,
    least: [f64; 2],
}

/// The bands of cells of this size, which are as high as they are wide.
fn bands_of(px: u32) -> Vec<Band> {
    let mut bands = Vec::new();
    for width in WIDTHS.into_iter().filter(|width| px <= *width && width / (width / px) == px) {
        let cells = i64::from(width / px);
        for (name, swept) in [("not swept", None), ("swept", Some((0, cells - 1)))] {
            let picture = one_row((width, px), cells);
            bands.push(Band {
                name: format!("{width} × {px}, {name}"),
                tape: tape(cells, (cells / 4).max(2)),
                swept,
                old: picture::beside(&picture),
                ours: picture::beside(&picture),
                least: [f64::INFINITY; 2],
            });
        }
    }
    bands
}

impl Band {
    fn measure(&mut self) {
        let Self { tape, swept, old, ours, .. } = self;
        let measured = in_turns(
            A_PASS,
            [&mut || draw(ffi::row_before, old, tape, *swept), &mut || draw(ffi::row, ours, tape, *swept)],
        );
        assert!(ours.index == old.index && ours.store == old.store, "the versions draw alike");
        self.least = [0, 1].map(|side| self.least[side].min(measured.least(side)));
    }

    /// How many times as long ours takes as the version before.
    fn ratio(&self) -> f64 {
        self.least[1] / self.least[0]
    }
}

/// An exact picture with one row of cells of this size, from 0 on.
fn sized((width, height): (u32, u32), px: u32) -> Picture {
    let cells = i64::from(width / px);
    let order =
        Exact { first_step: 0, cell_px: Some(px), heads: &[cells / 2], written: Some((0, cells - 1)), halted: false };
    Picture::exact(width, height, 2, &order).expect("a size that is taken")
}

/// Times the first row's call and prints its line.
fn told(name: &str, mut picture: Picture, tape: &ffi::Tape, swept: Option<Pair>) {
    picture.load(&tape.original());
    let mut old = picture::beside(&picture);
    let mut ours = picture::beside(&picture);
    let measured = measure([
        &mut || draw(ffi::row_before, &mut old, tape, swept),
        &mut || draw(ffi::row, &mut ours, tape, swept),
        &mut || black_box(&mut picture).draw_first(swept),
    ]);
    assert!(ours.index == picture.index() && ours.store == picture.store(), "the sides draw alike");
    assert!(!ffi::BEFORE || (ours.index == old.index && ours.store == old.store), "the versions draw alike");
    println!("| {name} | {}", cells(&measured));
}

/// Draws the first row.
fn draw(
    row: impl Fn(&mut ffi::Picture, &ffi::Tape, Option<Pair>) -> u64,
    picture: &mut ffi::Picture,
    tape: &ffi::Tape,
    swept: Option<Pair>,
) {
    picture.record[DONE] = 0;
    black_box(row(black_box(picture), black_box(tape), swept));
}

fn cells(measured: &Measured<3>) -> String {
    let [before, ours, original] = [0, 1, 2].map(|side| measured.least(side));
    let (old, gain) =
        if ffi::BEFORE { (time(before), figures(ours / before)) } else { ("-".to_string(), "-".to_string()) };
    format!("{old} | {} | {} | {gain} | {} |", time(ours), time(original), figures(ours / original))
}
