//! Clicks: on every pixel of small pictures and just outside them, on the borders of any, with none, some and all of
//! their rows done; and on records and stores that are refused.

use random::Rng;

use super::records::{around, some, sound};
use crate::calls::{Click, MOST_CELLS};
use crate::columns::Columns;
use crate::count::Count;
use crate::orders::{ExactOrder, Frame, OverviewOrder};
use crate::record::{DONE, HEIGHT, ROW_HEIGHT, ROWS, Record, WIDTH, WORDS};
use crate::tape::L;

const RANDOM: u32 = 6_000;

/// Stores are filled for each picture, so larger ones are clicked on seldom.
const SMALL: usize = 1 << 14;

pub fn run(count: &mut Count, rng: &mut Rng) {
    for (width, height) in (1..=9).flat_map(|width| (1..=6).map(move |height| (width, height))) {
        let frame = Frame { width, height, symbols: 3 };
        for record in overviews(frame).into_iter().chain(exact_pictures(frame)) {
            every_pixel(count, rng, &record);
        }
    }
    for _ in 0..RANDOM {
        let record = sound(rng);
        if record.store_length() <= SMALL {
            borders(count, rng, &record);
        }
    }
    large(count, rng);
    refused(count, rng);
}

/// Overviews in cells and in bins, with a row for each step and with fewer.
fn overviews(frame: Frame) -> Vec<Record> {
    let spans = 1..=i64::from(frame.width) + 3;
    let orders = spans.flat_map(|span| [0, 1, 4, 7, 23].map(|total| OverviewOrder { total, extent: (-2, span - 3) }));
    orders.map(|order| order.fit(frame).expect("an order that is taken")).collect()
}

/// Exact pictures in cells of a given size and of none, and in bins.
fn exact_pictures(frame: Frame) -> Vec<Record> {
    let sizes = [None, Some(1), Some(2), Some(3)];
    let heads = [vec![5], vec![0, 1, 2], vec![-4, 9]];
    let orders = sizes.into_iter().flat_map(|size| {
        let order = |heads: &Vec<i64>| ExactOrder {
            first_step: u64::MAX - 1,
            size,
            heads: heads.clone(),
            written: Some((1, 3)),
            halted: false,
        };
        heads.iter().map(order).collect::<Vec<_>>()
    });
    orders.filter_map(|order| order.fit(frame).ok()).collect()
}

/// None of the rows done, some, and all.
fn stages(record: &Record) -> Vec<Record> {
    let rows = record.0[ROWS];
    let mut done = vec![0, rows / 2, rows - 1, rows];
    done.dedup();
    done.into_iter().map(|done| record.with(DONE, done)).collect()
}

fn every_pixel(count: &mut Count, rng: &mut Rng, record: &Record) {
    let (width, height) = (record.0[WIDTH] as u32, record.0[HEIGHT] as u32);
    let pixels: Vec<_> = (0..=width + 1).flat_map(|x| (0..=height + 1).map(move |y| (x, y))).collect();
    for record in stages(record) {
        count.take(&click(rng, &record, record.store_length(), &pixels));
    }
}

fn click(rng: &mut Rng, record: &Record, store: usize, pixels: &[(u32, u32)]) -> Click {
    Click { record: *record, store, seed: rng.number(), pixels: pixels.to_vec() }
}

/// Clicks at and beside the borders of window, cells and picture, and of the first, the last drawn and the last band.
fn borders(count: &mut Count, rng: &mut Rng, record: &Record) {
    for record in stages(record).into_iter().chain([*record]) {
        let pixels = border_pixels(rng, &record);
        count.take(&click(rng, &record, record.store_length(), &pixels));
    }
}

fn border_pixels(rng: &mut Rng, record: &Record) -> Vec<(u32, u32)> {
    let [width, height, row_height, rows, done] = [WIDTH, HEIGHT, ROW_HEIGHT, ROWS, DONE].map(|word| record.0[word]);
    let (left, right, px) = match record.columns() {
        Some(Columns::Cells { count, px, x0, .. }) => (x0, x0 + count * px, px),
        _ => (0, width, 1),
    };
    let across = [0, left, left + px, right - px, right, width, rng.below(width), u64::from(u32::MAX)];
    let down = [0, row_height, done * row_height, rows * row_height, height, rng.below(height), u64::from(u32::MAX)];
    let beside = |place: u64| [place.saturating_sub(1) as u32, place as u32];
    across.into_iter().flat_map(beside).flat_map(|x| down.into_iter().flat_map(beside).map(move |y| (x, y))).collect()
}

/// The largest pictures, and the widest bins.
fn large(count: &mut Count, rng: &mut Rng) {
    let most = MOST_CELLS as i64;
    for extent in [(0, 4095), (-7, 900), (-1, 4096), (-L, -L + most - 1), (L - most + 1, L)] {
        let frame = Frame { width: 4096, height: 4096, symbols: 64 };
        let record = OverviewOrder { total: u64::MAX, extent }.fit(frame).expect("an order that is taken");
        borders(count, rng, &record);
    }
    for (width, height, size) in [(4096, 4095, 7), (4095, 4096, 4095), (4093, 4096, 2)] {
        let order =
            ExactOrder { first_step: 0, size: Some(size), heads: vec![-L; 1], written: Some((-L, L)), halted: true };
        let record = order.fit(Frame { width, height, symbols: 1 }).expect("an order that is taken");
        borders(count, rng, &record);
    }
}

/// Records with a word at or beside each of its bounds, and stores that are a byte too short or too long, or empty.
fn refused(count: &mut Count, rng: &mut Rng) {
    for record in some() {
        let record = record.with(DONE, record.0[ROWS]);
        let right = record.store_length();
        for store in [right, right + 1, right.saturating_sub(1), 0] {
            count.take(&click(rng, &record, store, &[(0, 0), (1, 1), (u32::MAX, u32::MAX)]));
            for word in 0..WORDS {
                for value in around(&record, word) {
                    count.take(&click(rng, &record.with(word, value), store, &[(0, 0), (1, 1)]));
                }
            }
        }
    }
}
