//! The original on the worked pictures (RULES): that the harness reaches the functions that are meant.

use random::Rng;
use reference::{Bins, Columns, Exact, Located, Overview, Palette, Picture, Rgb, Tape, tally_shade};

use crate::count::Count;

pub fn run(count: &mut Count, _: &mut Rng) {
    cells_of_two_pixels(count);
    bins_of_ten_cells(count);
    one_row(count);
    margins(count);
    cells_or_bins(count);
    colours(count);
}

fn cells_of_two_pixels(count: &mut Count) {
    let order = Exact { first_step: 0, cell_px: Some(2), heads: &[0, 1], written: Some((0, 0)), halted: false };
    let mut picture = Picture::exact(8, 4, 2, &order).expect("a size that is taken");
    count.equal("picture 1, window", &picture.tape_range(), &Some((-1, 2)));
    picture.draw(&Tape::new(0, 1, [], []), None);
    picture.draw(&Tape::new(1, 0, [(1, 1)], []), None);
    let lines = [[0, 0, 255, 255, 0, 0, 0, 0], [0, 0, 64, 64, 255, 255, 0, 0]];
    count.equal("picture 1, index", &picture.index().to_vec(), &[lines[0], lines[0], lines[1], lines[1]].concat());
    count.equal("picture 1, store", &picture.store().to_vec(), &vec![0, 1, 0, 0, 0, 1, 0, 0]);
    count.equal("picture 1, row 1", &picture.row(1), &Some((1, 2..4)));
    let located = |step, cell, symbol| Some(Located { step, from: cell, to: cell, symbol: Some(symbol) });
    count.equal("picture 2, (0, 3)", &picture.locate(0, 3), &located(1, -1, 0));
    count.equal("picture 2, (2, 0)", &picture.locate(2, 0), &located(0, 0, 1));
}

fn bins_of_ten_cells(count: &mut Count) {
    let mut picture = overview(4, 3, 5, (0, 9));
    let steps: Vec<_> = (0..4).map(|row| picture.row(row).map(|(step, _)| step)).collect();
    count.equal("picture 3, steps", &steps, &vec![Some(0), Some(3), Some(5), None]);
    picture.draw(&Tape::new(-1, 0, [], [(1, 1), (0, 2)]), None);
    count.equal("picture 4, ink", &picture.index()[..4].to_vec(), &vec![19, 19, 0, 0]);
    let cells: Vec<_> = (0..4).filter_map(|x| picture.locate(x, 0)).map(|at| (at.from, at.to)).collect();
    count.equal("picture 3, cells", &cells, &vec![(0, 2), (2, 4), (5, 7), (7, 9)]);
    picture.draw(&Tape::new(2, 1, [], []), None);
    count.equal("picture 4, head", &picture.index()[4..8].to_vec(), &vec![19, 255, 0, 0]);
    picture.draw(&Tape::new(2, 1, [], []), Some((0, 9)));
    count.equal("picture 4, swept", &picture.index()[8..].to_vec(), &vec![19, 255, 254, 254]);

    let bins = Bins::new(10, 4);
    let mut tallies = [0; 4];
    bins.add(&mut tallies, &mut 3, 2, 2);
    count.equal("picture 4, tallies", &tallies, &[2, 2, 0, 0]);
    count.equal("picture 4, head's bin", &bins.of(2), &1);
    count.equal("picture 3, cells of bin 1", &bins.cells_of(1), &(2, 4));
    count.equal("picture 4, bins of cell 2", &bins.overlapping(2, 2), &(0, 1));
    count.equal("picture 9", &tally_shade(1, 1 << 50), &8);
}

fn one_row(count: &mut Count) {
    for (total, stride) in [(5, 5), (0, 1)] {
        let picture = overview(4, 1, total, (0, 9));
        count.equal("picture 5, rows", &picture.grid().rows, &1);
        count.equal("picture 5, stride", &picture.grid().stride, &stride);
        count.equal("picture 5, step", &picture.row(0), &Some((0, 0..1)));
    }
}

fn margins(count: &mut Count) {
    let mut picture = overview(20, 10, 4, (0, 2));
    count.equal("picture 6, columns", &picture.grid().columns, &Columns::Cells { first: 0, count: 3, px: 6, x0: 1 });
    count.equal("picture 6, row height", &picture.grid().row_px, &2);
    picture.draw(&Tape::new(0, 0, [], []), None);
    let found: Vec<u32> = (0..20).filter(|&x| picture.locate(x, 0).is_some()).collect();
    count.equal("picture 6, margins", &found, &(1..19).collect());
}

fn cells_or_bins(count: &mut Count) {
    let cells = |last| matches!(overview(4096, 2, 1, (0, last)).grid().columns, Columns::Cells { .. });
    count.equal("picture 7, 4096 cells", &cells(4095), &true);
    count.equal("picture 7, 4097 cells", &cells(4096), &false);
}

fn colours(count: &mut Count) {
    let table = reference::colour_table(&Palette::LIGHT);
    count.equal("picture 10, index 1", &table[1], &Rgb(251, 251, 251));
    count.equal("picture 10, index 32", &table[32], &Rgb(136, 136, 136));
    count.equal("picture 10, swept", &table[254], &Rgb(177, 198, 227));
    let coloured = reference::rgba(&[1, 254], &Palette::LIGHT);
    count.equal("picture 10, bytes", &coloured, &vec![251, 251, 251, 255, 177, 198, 227, 255]);
    let mixed = Rgb(0, 1, 0).mix(Rgb(90, 91, 0), 0.35);
    count.equal("picture 11", &mixed, &Rgb(31, 33, 0));
    let half = 0.5 - f64::EPSILON / 4.0;
    count.equal("a mix just under a half", &Rgb(0, 0, 0).mix(Rgb(1, 1, 1), half), &Rgb(0, 0, 0));
}

fn overview(width: u32, height: u32, total: u64, extent: (i64, i64)) -> Picture {
    Picture::overview(width, height, 2, &Overview { total, extent }).expect("a size that is taken")
}
