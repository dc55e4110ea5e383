//! Uprights: every column and every pair of rows of small pictures that are all of one byte but for one pixel, and random, with
//! symbols under the heads that differ from cell to cell; and the refusals 15, 7, 8 and 16 at their bounds.

use random::Rng;

use super::records::{around, some, sound};
use crate::calls::Upright;
use crate::count::Count;
use crate::record::{DONE, ROWS, Record, WIDTH, WORDS};

const RANDOM: u32 = 10_000;

/// Pictures that are asked about every column and every pair of rows.
const SMALL: usize = 256;

/// A byte for all pixels, and another for one: inks, the head, paper, swept, and spare at its ends.
const PAIRS: [(u8, u8); 9] =
    [(64, 0), (1, 65), (64, 253), (1, 254), (64, 255), (255, 64), (255, 0), (255, 254), (0, 255)];

pub fn run(count: &mut Count, rng: &mut Rng) {
    let records: Vec<Record> = some().into_iter().filter(|record| record.index_length() <= SMALL).collect();
    for record in &records {
        let record = record.with(DONE, record.0[ROWS]);
        one_pixel(count, &record);
        refused(count, &record);
    }
    for _ in 0..RANDOM {
        let record = sound(rng);
        if record.index_length() <= SMALL {
            let (index, store) = (marks(rng, record.index_length()), symbols(rng, record.store_length()));
            every_column(count, &record, &index, &store);
        }
    }
}

/// Heads and inks, with some, few or no others among them.
fn marks(rng: &mut Rng, length: usize) -> Vec<u8> {
    let (other, head) = (rng.pick(&[3, 20, 2_000]), rng.pick(&[2, 5, 40]));
    let byte = |rng: &mut Rng| match (rng.one_in(other), rng.one_in(head)) {
        (true, _) => rng.pick(&[0, 65, 253, 254]),
        (_, true) => 255,
        _ => rng.within(1, 64) as u8,
    };
    (0..length).map(|_| byte(rng)).collect()
}

/// Symbols of which some, few or none are blank.
fn symbols(rng: &mut Rng, length: usize) -> Vec<u8> {
    let blank = rng.pick(&[2, 10, 2_000]);
    (0..length).map(|_| if rng.one_in(blank) { 0 } else { rng.within(1, 255) as u8 }).collect()
}

/// One pixel that is not as all the others, at each place. Of the symbols every third is blank, or none.
fn one_pixel(count: &mut Count, record: &Record) {
    let length = record.index_length();
    let width = record.0[WIDTH] as usize;
    let some_blank: Vec<u8> = (0..record.store_length()).map(|place| (place % 3) as u8).collect();
    for store in [some_blank, vec![1; record.store_length()]] {
        for (ground, odd) in PAIRS {
            for place in 0..length {
                let mut index = vec![ground; length];
                index[place] = odd;
                every_row(count, record, &index, &store, (place % width) as u32);
            }
        }
    }
}

fn every_column(count: &mut Count, record: &Record, index: &[u8], store: &[u8]) {
    for column in 0..=record.0[WIDTH] as u32 {
        every_row(count, record, index, store, column);
    }
}

/// Every pair of rows of few, the bounds and what is beside them among many.
fn every_row(count: &mut Count, record: &Record, index: &[u8], store: &[u8], column: u32) {
    let done = record.0[DONE] as u32;
    let mut rows: Vec<u32> = if done <= 6 { (0..=done + 1).collect() } else { vec![0, 1, done / 2, done - 1, done] };
    rows.dedup();
    for (first_row, last_row) in rows.iter().flat_map(|&first| rows.iter().map(move |&last| (first, last))) {
        let (index, store) = (index.to_vec(), store.to_vec());
        count.take(&Upright { record: *record, index, store, column, first_row, last_row });
    }
}

/// 15, 7, 8 and 16, one at a time and together.
fn refused(count: &mut Count, record: &Record) {
    let (pixels, cells) = (record.index_length(), record.store_length());
    let (width, done) = (record.0[WIDTH] as u32, record.0[DONE] as u32);
    let asked = [
        (0, 0, done - 1),
        (width - 1, done - 1, done - 1),
        (width, 0, 0),
        (u32::MAX, 0, 0),
        (0, 1, 0),
        (0, u32::MAX, 0),
        (0, 0, done),
        (0, done, done),
        (0, 0, u32::MAX),
        (width, 1, 0),
    ];
    let lengths = [
        (pixels, cells),
        (pixels + 1, cells),
        (pixels - 1, cells),
        (0, cells),
        (pixels, cells + 1),
        (pixels, cells.saturating_sub(1)),
        (pixels + 1, cells + 1),
    ];
    for (column, first_row, last_row) in asked {
        for (index, store) in lengths {
            let (index, store) = (vec![9; index], vec![1; store]);
            let upright = Upright { record: *record, index, store, column, first_row, last_row };
            count.take(&upright);
            for word in 0..WORDS {
                for value in around(record, word) {
                    count.take(&Upright { record: record.with(word, value), ..upright.clone() });
                }
            }
        }
    }
}
