//! Tapes at and around every bound of the checks 2, 11 and 12, alone and together, so that their order shows too.

use random::Rng;

use crate::calls::{Get, Join, Window};
use crate::count::Count;
use crate::tape::{L, Side, Tape};
use crate::tapes::{room_left, room_right, sound};

const COUNTS: [u32; 10] = [0, 1, 2, 63, 64, 65, 255, 256, 257, u32::MAX];
pub const HEADS: [i64; 9] = [i64::MIN, -L - 1, -L, 1 - L, 0, L - 1, L, L + 1, i64::MAX];
const DAMAGED: u32 = 100_000;

pub fn run(count: &mut Count, rng: &mut Rng) {
    for symbols in COUNTS {
        for head in HEADS {
            at_bounds(count, symbols, head);
        }
    }
    for _ in 0..DAMAGED {
        let mut tape = sound(rng);
        for _ in 0..rng.within(1, 3) {
            damage(rng, &mut tape);
        }
        read(count, tape);
    }
}

fn at_bounds(count: &mut Count, symbols: u32, head: i64) {
    let lefts = sides(symbols, room_left(head.clamp(-L, L)));
    let rights = sides(symbols, room_right(head.clamp(-L, L)));
    for cur in [0, low_byte(symbols.saturating_sub(1)), low_byte(symbols), u8::MAX] {
        for left in &lefts {
            for right in &rights {
                read(count, Tape { symbols, head, cur, left: left.clone(), right: right.clone() });
            }
        }
    }
}

fn read(count: &mut Count, tape: Tape) {
    count.take(&Get { tape: tape.clone(), position: tape.head });
    count.take(&Join { tape: tape.clone() });
    count.take(&Window { from: tape.head, tape, length: 3 });
}

/// Sides that each check takes and sides that it refuses, for that many symbols and that much room.
pub fn sides(symbols: u32, room: u64) -> Vec<Side> {
    let highest = low_byte(symbols.saturating_sub(1));
    let list = |symbols: &[u8], lengths: &[u64]| Side { symbols: symbols.to_vec(), lengths: lengths.to_vec() };
    vec![
        list(&[], &[]),
        list(&[highest], &[1]),
        // 11: a symbol past the alphabet, a run of no cells, lists that differ in length
        list(&[low_byte(symbols), 0], &[1, 1]),
        list(&[0, low_byte(symbols)], &[1, 1]),
        list(&[0, 0], &[0, 1]),
        list(&[0, 0], &[1, 0]),
        list(&[0], &[]),
        list(&[], &[1]),
        list(&[0, 0], &[1]),
        // 12: a total at its bound, one more, and totals of 2^64 and beyond
        list(&[highest], &[room.max(1)]),
        list(&[highest], &[room + 1]),
        list(&[highest, 0], &[1, room.saturating_sub(1).max(1)]),
        list(&[highest, 0], &[1, room.max(1)]),
        list(&[highest, 0], &[u64::MAX, 1]),
        list(&[0, 0], &[1, room.max(1)]),
        list(&[0], &[u64::MAX]),
        list(&[0, 0], &[u64::MAX, 1]),
        list(&[0, 0, 0], &[1 << 63, 1 << 63, 1]),
        list(&[0, 0, 0], &[u64::MAX, u64::MAX, 2]),
    ]
}

/// What a count's low byte is as a symbol: past the alphabet for 64 symbols and fewer, and for 256 and more a symbol
/// that a check of the low byte alone would get wrong.
pub fn low_byte(count: u32) -> u8 {
    count as u8
}

pub fn damage(rng: &mut Rng, tape: &mut Tape) {
    let symbols = tape.symbols;
    let side = if rng.one_in(2) { &mut tape.left } else { &mut tape.right };
    let runs = side.symbols.len().min(side.lengths.len()) as u64;
    let at = if runs == 0 { 0 } else { rng.below(runs) as usize };
    match rng.below(9) {
        0 => tape.symbols = rng.pick(&COUNTS),
        1 => tape.cur = low_byte(symbols),
        2 => tape.head = rng.pick(&HEADS),
        3 if runs > 0 => side.symbols[at] = low_byte(symbols),
        4 if runs > 0 => side.lengths[at] = 0,
        5 if runs > 0 => side.lengths[at] = rng.pick(&[1 << 62, (1 << 62) + 1, 1 << 63, (1 << 63) + 1, u64::MAX]),
        6 => drop(side.symbols.pop()),
        7 => drop(side.lengths.pop()),
        _ => side.lengths.push(rng.of_any_size(u64::MAX)),
    }
}
