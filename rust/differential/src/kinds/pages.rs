//! Pages: random pictures with every index byte and steps of every length, and the refusals 15, 7, 17 and 18 at their bounds.

use random::Rng;

use super::equalities::any_index;
use super::records::{around, some, sound};
use crate::calls::Page;
use crate::count::Count;
use crate::orders::{Frame, OverviewOrder};
use crate::record::{DONE, FIRST_STEP, LAST_STEP, ROWS, Record, STRIDE, WIDTH, WORDS};

const RANDOM: u32 = 20_000;

pub fn run(count: &mut Count, rng: &mut Rng) {
    for width in 58..=61 {
        let fit = OverviewOrder { total: 5, extent: (0, 9) }.fit(Frame { width, height: 3, symbols: 2 });
        refused(count, rng, &fit.expect("an order that is taken").with(DONE, 3));
    }
    for record in some().into_iter().filter(|record| record.0[WIDTH] <= 64) {
        let record = record.with(DONE, record.0[ROWS]);
        refused(count, rng, &record);
        every_byte(count, &record);
        every_length_of_a_step(count, rng, &record);
    }
    for _ in 0..RANDOM {
        let record = sound(rng);
        if record.index_length() <= 1 << 14 {
            let index = any_index(rng, record.index_length());
            count.take(&Page { record, index, length: 81 * record.0[DONE] as usize });
        }
    }
}

/// Every index byte at every place of the picture.
fn every_byte(count: &mut Count, record: &Record) {
    let length = record.index_length();
    for byte in 0..=u8::MAX {
        let index = (0..length).map(|at| (at as u8).wrapping_mul(31).wrapping_add(byte)).collect();
        count.take(&Page { record: *record, index, length: 81 * record.0[DONE] as usize });
    }
}

/// Steps of 1 to 20 digits, at both ends of each length.
fn every_length_of_a_step(count: &mut Count, rng: &mut Rng, record: &Record) {
    let index = any_index(rng, record.index_length());
    for power in 0..20 {
        let least = 10u64.pow(power);
        for first in [least, least - 1, u64::MAX / 10 * 10, u64::MAX] {
            let words = [(FIRST_STEP, first), (STRIDE, 1), (LAST_STEP, u64::MAX)];
            let record = words.into_iter().fold(*record, |record, (word, value)| record.with(word, value));
            count.take(&Page { record, index: index.clone(), length: 81 * record.0[DONE] as usize });
        }
    }
}

/// 15, 7, 17 and 18, one at a time and together.
fn refused(count: &mut Count, rng: &mut Rng, record: &Record) {
    let pixels = record.index_length();
    let lines = 81 * record.0[DONE] as usize;
    for index in [pixels, pixels + 1, pixels - 1, 0] {
        for length in [lines, lines + 1, lines - 1, lines + 81, lines - 81, 80 * record.0[DONE] as usize, 0] {
            let page = Page { record: *record, index: any_index(rng, index), length };
            count.take(&page);
            if index == pixels && length == lines {
                for word in 0..WORDS {
                    for value in around(record, word) {
                        count.take(&Page { record: record.with(word, value), ..page.clone() });
                    }
                }
            }
        }
    }
}
