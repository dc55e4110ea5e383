//! Row calls at and around the bound of every check, and with two faults at once, so that the order of the checks shows.

use random::Rng;

use super::drawn_pictures::source;
use super::records::{around, some};
use super::refusals::{self, HEADS, low_byte, sides};
use crate::calls::{Row, Source};
use crate::count::Count;
use crate::record::{DONE, ROWS, Record, STRIDE, SYMBOLS, WORDS};
use crate::tape::{L, Side, Tape};
use crate::tapes::{room_left, room_right};

const DAMAGED: u32 = 40_000;

/// Records with more pixels are left out where many calls are made on each.
const SMALL: usize = 1 << 12;

pub fn run(count: &mut Count, rng: &mut Rng) {
    let records: Vec<Record> = some().into_iter().filter(|record| record.index_length() <= SMALL).collect();
    for record in &records {
        let rows = record.0[ROWS];
        for done in [0, rows - 1, rows, rows + 1] {
            let row = Row::on(record.with(DONE, done), plain_tape(record), None);
            words(count, &row);
            lengths(count, &row);
        }
        let row = Row::on(*record, plain_tape(record), None);
        tapes(count, &row);
        unjoined(count, &row);
        swept_pairs(count, &row);
        two_faults(count, &row);
    }
    for _ in 0..DAMAGED {
        let record = rng.pick(&records);
        let record = record.with(DONE, rng.below(record.0[ROWS]));
        let Source { tape, swept } = source(rng, &record, None);
        let mut row = Row::on(record, tape, swept);
        for _ in 0..rng.within(1, 3) {
            damage(rng, &mut row);
        }
        count.take(&row);
    }
}

/// A tape with a run on each side of a head near position 0, where the alphabet has a symbol to write.
fn plain_tape(record: &Record) -> Tape {
    let highest = low_byte(record.0[SYMBOLS] as u32 - 1);
    let side = if highest == 0 { Side::default() } else { Side::new(&[(highest, 3), (0, 1)]) };
    Tape { symbols: record.0[SYMBOLS] as u32, head: 1, cur: highest, left: side.clone(), right: side }
}

/// 15 and 14: every word at and around its bounds.
fn words(count: &mut Count, row: &Row) {
    for word in 0..WORDS {
        for value in around(&row.record, word) {
            let record = row.record.with(word, value);
            count.take(&Row { record, ..row.clone() });
            if record.sound() && record.index_length() <= SMALL {
                count.take(&Row::on(record, row.tape.clone(), None));
            }
        }
    }
}

/// 7, 8 and 9: each length at and beside its bound, each with each.
fn lengths(count: &mut Count, row: &Row) {
    let beside = |length: usize| [length, length + 1, length.saturating_sub(1), 0, row.record.0[0] as usize];
    for index in beside(row.index) {
        for store in beside(row.store) {
            for tallies in beside(row.tallies) {
                count.take(&Row { index, store, tallies, ..row.clone() });
            }
        }
    }
}

/// 11 and 12: each side in turn, symbols and totals at and around their bounds.
fn tapes(count: &mut Count, row: &Row) {
    let symbols = row.record.0[SYMBOLS] as u32;
    for head in HEADS {
        let (left, right) = (room_left(head.clamp(-L, L)), room_right(head.clamp(-L, L)));
        let lefts = sides(symbols, left).into_iter().map(|left| (left, Side::default()));
        let rights = sides(symbols, right).into_iter().map(|right| (Side::default(), right));
        for (left, right) in lefts.chain(rights) {
            for cur in [low_byte(symbols - 1), low_byte(symbols), low_byte(symbols + 1), u8::MAX] {
                let tape = Tape { symbols, head, cur, left: left.clone(), right: right.clone() };
                count.take(&Row { tape, ..row.clone() });
            }
        }
    }
}

/// 19: sides of up to three runs of every symbol up to 2, on the left, on the right and on both; with each one alone, and with 11
/// or 12 besides.
fn unjoined(count: &mut Count, row: &Row) {
    let symbols = row.record.0[SYMBOLS].min(3) as u8;
    let mut sides = vec![Vec::new()];
    for from in 0..40 {
        let Some(side) = sides.get(from).filter(|side: &&Vec<(u8, u64)>| side.len() < 3).cloned() else {
            continue;
        };
        sides.extend((0..symbols).map(|symbol| [&side[..], &[(symbol, 2)]].concat()));
    }
    for side in sides.iter().map(|runs| Side::new(runs)) {
        let none = Side::default;
        for (left, right) in [(side.clone(), none()), (none(), side.clone()), (side.clone(), side.clone())] {
            for head in [0, L, -L, L + 1] {
                for cur in [0, low_byte(row.record.0[SYMBOLS] as u32)] {
                    let tape = Tape { head, cur, left: left.clone(), right: right.clone(), ..row.tape.clone() };
                    count.take(&Row { tape, ..row.clone() });
                }
            }
        }
    }
}

/// 13: each end at and around its bounds, in order and reversed.
fn swept_pairs(count: &mut Count, row: &Row) {
    let ends = [i64::MIN, -L - 1, -L, 1 - L, -1, 0, 1, L - 1, L, L + 1, i64::MAX];
    for pair in ends.into_iter().flat_map(|low| ends.map(|high| (low, high))) {
        count.take(&Row { swept: Some(pair), ..row.clone() });
    }
}

type Fault = fn(&mut Row);

/// A fault for each check, in the order of the checks.
const FAULTS: [(u32, Fault); 9] = [
    (15, |row| row.record.0[STRIDE] = 0),
    (14, |row| row.record.0[DONE] = row.record.0[ROWS]),
    (7, |row| row.index += 1),
    (8, |row| row.store += 1),
    (9, |row| row.tallies += 1),
    (11, |row| row.tape.cur = low_byte(row.record.0[SYMBOLS] as u32)),
    (19, |row| row.tape.left = Side::new(&[(0, 1)])),
    (12, |row| row.tape.head = L + 1),
    (13, |row| row.swept = Some((1, 0))),
];

fn two_faults(count: &mut Count, row: &Row) {
    for (place, (number, fault)) in FAULTS.iter().enumerate() {
        for (_, later) in &FAULTS[place..] {
            let mut row = row.clone();
            later(&mut row);
            fault(&mut row);
            count.equal("the first check that fails", &row.refusal(), number);
            count.take(&row);
        }
    }
}

fn damage(rng: &mut Rng, row: &mut Row) {
    let length = |rng: &mut Rng, length: usize| rng.pick(&[length + 1, length.saturating_sub(1), length, 0]);
    match rng.below(8) {
        0 => {
            let word = rng.below(WORDS as u64) as usize;
            row.record = row.record.with(word, rng.pick(&around(&row.record, word)));
        }
        1 => row.record.0[DONE] = row.record.0[ROWS],
        2 => row.index = length(rng, row.index),
        3 => row.store = length(rng, row.store),
        4 => row.tallies = length(rng, row.tallies),
        5 => row.swept = Some((rng.pick(&HEADS), rng.pick(&HEADS))),
        _ => refusals::damage(rng, &mut row.tape),
    }
}
