//! The library on those of the worked pictures (RULES) that are about fits, rows and ranges.

use random::Rng;

use crate::calls::MOST_CELLS;
use crate::count::Count;
use crate::ffi;
use crate::orders::{ExactOrder, Frame, OverviewOrder};
use crate::record::{BINS, CELLS, MARGIN, PX, ROW_HEIGHT, ROWS, Record, STRIDE, WORDS};

pub fn run(count: &mut Count, _: &mut Rng) {
    cells_of_two_pixels(count);
    bins_of_ten_cells(count);
    one_row(count);
    margins(count);
    cells_or_bins(count);
    most_cells(count);
}

fn cells_of_two_pixels(count: &mut Count) {
    let frame = Frame { width: 8, height: 4, symbols: 2 };
    let order = ExactOrder { first_step: 0, size: Some(2), heads: vec![0, 1], written: Some((0, 0)), halted: false };
    let record = taken(&ffi::fit_exact(frame, &order));
    let before_0 = (1 << 63) - 1;
    let words = [8, 4, 2, 1, 0, before_0, 4, 2, 0, 2, 2, 0, 1, u64::MAX, 0, 0, 0];
    count.equal("picture 1, record", &record, &Record(words));
    count.equal("picture 1, window", &ffi::range(&record).output, &vec![-1, 2]);
    let rows = [0, 1, 2].map(|row| ffi::row_lines(&record, row).output);
    count.equal("picture 1, rows", &rows, &[vec![1, 0, 0, 2], vec![1, 1, 2, 4], vec![0; 4]]);
}

fn bins_of_ten_cells(count: &mut Count) {
    let record = taken(&overview(4, 3, 5, (0, 9)));
    count.equal("picture 3, record", &record, &Record([4, 3, 2, 0, 1, 1 << 63, 10, 0, 0, 1, 3, 0, 3, 5, 0, 0, 0]));
    let rows = [0, 1, 2, 3].map(|row| ffi::row_lines(&record, row).output);
    count.equal("picture 3, steps", &rows, &[vec![1, 0, 0, 1], vec![1, 3, 1, 2], vec![1, 5, 2, 3], vec![0; 4]]);
    count.equal("picture 3, window", &ffi::range(&record).output, &vec![0, 9]);
}

fn one_row(count: &mut Count) {
    for (total, stride) in [(5, 5), (0, 1)] {
        let record = taken(&overview(4, 1, total, (0, 9)));
        count.equal("picture 5, rows", &record.0[ROWS], &1);
        count.equal("picture 5, stride", &record.0[STRIDE], &stride);
        let rows = [0, 1].map(|row| ffi::row_lines(&record, row).output);
        count.equal("picture 5, step", &rows, &[vec![1, 0, 0, 1], vec![0; 4]]);
    }
}

fn margins(count: &mut Count) {
    let record = taken(&overview(20, 10, 4, (0, 2)));
    count.equal("picture 6, p, row height, margin", &[PX, ROW_HEIGHT, MARGIN].map(|word| record.0[word]), &[6, 2, 1]);
}

fn cells_or_bins(count: &mut Count) {
    for (last, bins) in [(4095, 0), (4096, 1)] {
        let record = taken(&overview(4096, 2, 1, (0, last)));
        count.equal("picture 7", &[BINS, CELLS].map(|word| record.0[word]), &[bins, last.cast_unsigned() + 1]);
    }
}

fn most_cells(count: &mut Count) {
    let most = MOST_CELLS.cast_signed();
    count.equal("picture 8, 2^50 cells", &taken(&overview(1, 1, 0, (1, most))).0[CELLS], &MOST_CELLS);
    count.equal("picture 8, one more", &overview(1, 1, 0, (0, most)).number, &6);
    let exact = |heads| ExactOrder { first_step: 0, size: None, heads, written: None, halted: false };
    let frame = Frame { width: 7, height: 2, symbols: 2 };
    let passes = taken(&ffi::fit_exact(frame, &exact(vec![1, most])));
    count.equal("picture 8, 2^50 cells, exact", &passes.0[CELLS], &MOST_CELLS);
    count.equal("picture 8, one more, exact", &ffi::fit_exact(frame, &exact(vec![0, most])).number, &6);
}

fn overview(width: u32, height: u32, total: u64, extent: (i64, i64)) -> ffi::Answer<u64> {
    ffi::fit_overview(Frame { width, height, symbols: 2 }, OverviewOrder { total, extent })
}

/// The record of a fit that is taken; of one that is not, words that no fit has.
fn taken(answer: &ffi::Answer<u64>) -> Record {
    let words: [u64; WORDS] = answer.output.clone().try_into().expect("as many words as were lent");
    if answer.number == 0 && answer.disturbed.is_empty() { Record(words) } else { Record([u64::MAX; WORDS]) }
}
