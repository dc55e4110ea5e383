//! Equality of pictures: one byte or one symbol apart at every place, in drawn rows and in others, records that differ in each word,
//! sizes with as many pixels, and the refusals 15, 7 and 8 of the first picture and of the second.

use random::Rng;

use super::records::{around, some, sound};
use crate::calls::{Equal, Lent};
use crate::count::Count;
use crate::orders::{Frame, OverviewOrder};
use crate::record::{DONE, ROWS, Record, WORDS};

const RANDOM: u32 = 30_000;

/// Pictures that are compared with one byte changed at every place.
const SMALL: usize = 256;

pub fn run(count: &mut Count, rng: &mut Rng) {
    let records: Vec<Record> = some().into_iter().filter(is_small).collect();
    for record in &records {
        let mut dones = vec![0, 1, record.0[ROWS]];
        dones.dedup();
        for done in dones {
            let lent = any_lent(rng, &record.with(DONE, done));
            one_byte_apart(count, &lent);
            one_word_apart(count, &lent);
        }
        refused(count, &any_lent(rng, &record.with(DONE, record.0[ROWS])));
    }
    other_sizes(count, rng);
    for _ in 0..RANDOM {
        let record = sound(rng);
        if is_small(&record) {
            any_apart(count, rng, &record);
        }
    }
}

fn is_small(record: &Record) -> bool {
    record.index_length() <= SMALL
}

fn any_lent(rng: &mut Rng, record: &Record) -> Lent {
    let store = (0..record.store_length()).map(|_| rng.below(4) as u8).collect();
    Lent { record: *record, index: any_index(rng, record.index_length()), store }
}

/// A picture and the same with one byte of the index or of the store other, on either side.
fn one_byte_apart(count: &mut Count, lent: &Lent) {
    count.take(&Equal { first: lent.clone(), second: lent.clone() });
    let mut both = |other: &Lent| {
        count.take(&Equal { first: lent.clone(), second: other.clone() });
        count.take(&Equal { first: other.clone(), second: lent.clone() });
    };
    for change in [1, 128, 255] {
        for place in 0..lent.index.len() {
            let mut other = lent.clone();
            other.index[place] ^= change;
            both(&other);
        }
        for place in 0..lent.store.len() {
            let mut other = lent.clone();
            other.store[place] ^= change;
            both(&other);
        }
    }
}

/// The same bytes and symbols with a record that differs in one word: where that is sound, in what it makes of window, rows and steps.
fn one_word_apart(count: &mut Count, lent: &Lent) {
    for word in 0..WORDS {
        for value in around(&lent.record, word) {
            let other = Lent { record: lent.record.with(word, value), ..lent.clone() };
            count.take(&Equal { first: lent.clone(), second: other.clone() });
            count.take(&Equal { first: other.clone(), second: lent.clone() });
            count.take(&Equal { first: other.clone(), second: other });
        }
    }
}

/// All sizes of one number of pixels, each with each, with the same bytes, in cells and in bins.
fn other_sizes(count: &mut Count, rng: &mut Rng) {
    for pixels in [1, 2, 6, 12, 24] {
        let index = any_index(rng, pixels as usize);
        let sizes = (1..=pixels).filter(|width| pixels % width == 0).map(|width| (width, pixels / width));
        let records = sizes.flat_map(|(width, height)| of_size(width, height));
        let lent = |record: Record| Lent { record, index: index.clone(), store: vec![1; record.store_length()] };
        let pictures: Vec<Lent> = records.map(lent).collect();
        for first in &pictures {
            for second in &pictures {
                count.take(&Equal { first: first.clone(), second: second.clone() });
            }
        }
    }
}

fn of_size(width: u32, height: u32) -> Vec<Record> {
    let frame = Frame { width, height, symbols: 2 };
    let cells = OverviewOrder { total: 3, extent: (0, 0) }.fit(frame);
    let bins = OverviewOrder { total: 9, extent: (-5, 40) }.fit(frame);
    [cells, bins].into_iter().flatten().collect()
}

/// Faults of the first picture, of the second, and of both, so that the order of the checks shows.
fn refused(count: &mut Count, lent: &Lent) {
    let faults = faults(lent);
    for first in &faults {
        for second in &faults {
            count.take(&Equal { first: first.clone(), second: second.clone() });
        }
    }
}

/// A picture, and the same with each of index and store too long, too short or empty, with a sound record and an unsound one.
fn faults(lent: &Lent) -> Vec<Lent> {
    let lengths = |right: usize| [right, right + 1, right.saturating_sub(1), 0];
    let records = [lent.record, lent.record.with(DONE, u64::MAX)];
    let sizes =
        lengths(lent.index.len()).into_iter().flat_map(|index| lengths(lent.store.len()).map(|store| (index, store)));
    let fault = |(index, store): (usize, usize)| {
        records.map(|record| Lent { record, index: resized(&lent.index, index), store: resized(&lent.store, store) })
    };
    sizes.flat_map(fault).collect()
}

fn resized(bytes: &[u8], length: usize) -> Vec<u8> {
    let mut bytes = bytes.to_vec();
    bytes.resize(length, 0);
    bytes
}

/// A picture with some rows drawn, and one that differs in a word, a byte or a symbol, or in none.
fn any_apart(count: &mut Count, rng: &mut Rng, record: &Record) {
    let done = rng.within(0, record.0[ROWS]);
    let first = any_lent(rng, &record.with(DONE, done));
    let mut second = first.clone();
    match rng.below(4) {
        0 => {
            let word = rng.below(WORDS as u64) as usize;
            second.record = first.record.with(word, rng.pick(&around(&first.record, word)));
        }
        1 if !second.index.is_empty() => {
            let place = rng.below(second.index.len() as u64) as usize;
            second.index[place] ^= 1;
        }
        2 if !second.store.is_empty() => {
            let place = rng.below(second.store.len() as u64) as usize;
            second.store[place] ^= 1;
        }
        _ => {}
    }
    count.take(&Equal { first: first.clone(), second: second.clone() });
    count.take(&Equal { first: second, second: first });
}

/// Bytes of which none, some or most are paper.
pub fn any_index(rng: &mut Rng, length: usize) -> Vec<u8> {
    let paper = rng.pick(&[1, 2, 5, 60, 2_000]);
    (0..length).map(|_| if rng.one_in(paper) { 0 } else { rng.within(1, 255) as u8 }).collect()
}
