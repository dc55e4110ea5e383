//! Rows, ranges and openings of fitted pictures, of other sound records, and of records with one word or two damaged.

use random::Rng;

use super::overviews::any_frame;
use crate::calls::{MOST_CELLS, Open, Range, RowLines};
use crate::columns::{Columns, HIGHEST, LOWEST, ZERO};
use crate::count::Count;
use crate::orders::{ExactOrder, Frame, OverviewOrder};
use crate::record::{
    BINS, CELLS, DONE, FIRST, FIRST_STEP, HEIGHT, LAST_STEP, LEFT, MOST_ON_TAPE, RIGHT, ROW_HEIGHT, ROWS, Record,
    STRIDE, WORDS,
};
use crate::tape::L;

const RANDOM: u32 = 20_000;

/// Openings go through every byte, so larger pictures are opened seldom.
const SMALL: usize = 1 << 14;

pub fn run(count: &mut Count, rng: &mut Rng) {
    for record in some() {
        ask(count, &record);
        for word in 0..WORDS {
            for value in around(&record, word) {
                ask(count, &record.with(word, value));
            }
        }
    }
    for _ in 0..RANDOM {
        let record = sound(rng);
        ask(count, &record);
        let word = rng.below(WORDS as u64) as usize;
        let once = record.with(word, rng.pick(&around(&record, word)));
        ask(count, &once);
        let word = rng.below(WORDS as u64) as usize;
        ask(count, &once.with(word, rng.pick(&around(&once, word))));
    }
    large(count);
}

/// Records of fitted pictures, in cells and in bins, at the domain's ends too.
pub fn some() -> Vec<Record> {
    let frame = |width, height, symbols| Frame { width, height, symbols };
    let overview = |frame, total, extent| OverviewOrder { total, extent }.fit(frame);
    let exact = |frame, size, heads: &[i64], written| {
        ExactOrder { first_step: u64::MAX - 2, size, heads: heads.to_vec(), written, halted: false }.fit(frame)
    };
    let most = MOST_CELLS as i64;
    let fits = [
        exact(frame(8, 4, 2), Some(2), &[0, 1], Some((0, 0))),
        exact(frame(9, 7, 64), None, &[5, 6, 7, 8], None),
        exact(frame(4, 6, 1), None, &[0, 9], None),
        exact(frame(64, 64, 5), None, &[L, L - 1, L], None),
        exact(frame(4096, 3, 5), Some(1), &[-L], None),
        overview(frame(4, 3, 2), 5, (0, 9)),
        overview(frame(20, 10, 3), 4, (0, 2)),
        overview(frame(1, 1, 2), 5, (0, 0)),
        overview(frame(1, 2, 2), u64::MAX, (-L, -L + most - 1)),
        overview(frame(31, 64, 2), u64::MAX - 1, (L - most + 1, L)),
        overview(frame(4096, 2, 2), 1, (-L, -L)),
    ];
    fits.map(|fit| fit.expect("an order that is taken")).to_vec()
}

/// Values of a word at and around every bound that it has, in a record whose other words stay.
pub fn around(record: &Record, word: usize) -> Vec<u64> {
    let lines = record.0[HEIGHT] / record.0[ROW_HEIGHT].max(1);
    let high_lines = record.0[HEIGHT] / record.0[ROWS].max(1);
    let last = HIGHEST.wrapping_sub(record.0[CELLS]).wrapping_add(1);
    let bounds = [
        0,
        1,
        2,
        64,
        4096,
        1 << 32,
        1 << 63,
        MOST_CELLS,
        MOST_ON_TAPE,
        record.0[word],
        record.0[0],
        record.0[HEIGHT],
        record.0[ROWS],
        record.0[ROWS].wrapping_mul(record.0[ROW_HEIGHT]),
        lines,
        high_lines,
        LOWEST - 2047,
        LOWEST,
        HIGHEST,
        last,
    ];
    let mut values: Vec<u64> =
        bounds.into_iter().flat_map(|bound| [bound.wrapping_sub(1), bound, bound.wrapping_add(1)]).collect();
    values.sort_unstable();
    values.dedup();
    values
}

fn ask(count: &mut Count, record: &Record) {
    count.take(&Range { record: *record });
    let rows = record.0[ROWS] as u32;
    for row in [0, 1, rows.wrapping_sub(1), rows, u32::MAX] {
        count.take(&RowLines { record: *record, row });
    }
    let (index, store) = if record.sound() { (record.index_length(), record.store_length()) } else { (4, 4) };
    if index.max(store) <= SMALL {
        open(count, record, index, store);
    }
}

/// An opening with lengths that are right, and with one or both beside that.
fn open(count: &mut Count, record: &Record, index: usize, store: usize) {
    let beside = |length: usize| [length, length + 1, length.saturating_sub(1)];
    for (index, store) in beside(index).into_iter().flat_map(|index| beside(store).map(|store| (index, store))) {
        count.take(&Open { record: *record, index, store });
    }
    count.take(&Open { record: *record, index: 0, store: 0 });
}

/// A sound record, fitted or not.
pub fn sound(rng: &mut Rng) -> Record {
    let Frame { width, height, symbols } = any_frame(rng);
    let (width, height) = (u64::from(width), u64::from(height));
    let row_height = rng.of_any_size(height);
    let rows = rng.of_any_size(height / row_height);
    let done = rng.within(0, rows);
    let columns = if rng.one_in(2) {
        let cells = width + rng.of_any_size(MOST_CELLS - width);
        let any = rng.within(LOWEST, HIGHEST - (cells - 1));
        Columns::Bins { first: rng.pick(&[LOWEST, HIGHEST - (cells - 1), any]), cells, width }
    } else {
        let any = rng.within(LOWEST - 2047, HIGHEST);
        let first = rng.pick(&[LOWEST - 2047, LOWEST, ZERO, HIGHEST, any]);
        Columns::cells(width, rng.of_any_size(width), first)
    };
    let (bins, first, cells, size, x0) = columns.numbers();
    let mut step = || {
        let any = rng.of_any_size(u64::MAX);
        rng.pick(&[0, 1, any, any, u64::MAX])
    };
    let (first_step, stride, last_step) = (step(), step().max(1), step());
    let exact = u64::from(rng.one_in(2));
    let px = if bins { 0 } else { size };
    let mut record = Record([0; WORDS]);
    record.0[..DONE].copy_from_slice(&[
        width,
        height,
        symbols.into(),
        exact,
        0,
        0,
        cells,
        px,
        x0,
        row_height,
        rows,
        0,
        0,
        0,
    ]);
    let words =
        [(BINS, bins.into()), (FIRST, first), (FIRST_STEP, first_step), (STRIDE, stride), (LAST_STEP, last_step)];
    let record = words.into_iter().fold(record, |record, (word, value)| record.with(word, value));
    let mut beside = || {
        let any = rng.of_any_size(MOST_ON_TAPE);
        rng.pick(&[0, any, MOST_ON_TAPE])
    };
    let record = record.with(DONE, done).with(LEFT, beside()).with(RIGHT, beside());
    assert!(record.sound(), "{record} was meant to be sound");
    record
}

/// The largest pictures.
fn large(count: &mut Count) {
    for extent in [(0, 4095), (0, 4096)] {
        let frame = Frame { width: 4096, height: 4096, symbols: 2 };
        let record = OverviewOrder { total: 4095, extent }.fit(frame).expect("an order that is taken");
        let record = record.with(DONE, 4096);
        let (index, store) = (record.index_length(), record.store_length());
        for (index, store) in [(index, store), (index - 1, store), (index, store + 1)] {
            count.take(&Open { record, index, store });
        }
    }
}
