//! Rows in bins of random sound tapes, over windows around their borders, with and without a swept pair.

use random::Rng;

use super::pixels::{cells_over, first};
use crate::calls::{BinRow, MOST_CELLS};
use crate::columns::{HIGHEST, LOWEST, ZERO};
use crate::count::Count;
use crate::tape::{L, Side, Tape};
use crate::tapes::{landmarks, sound};

const ROWS: u32 = 40_000;

pub fn run(count: &mut Count, rng: &mut Rng) {
    for _ in 0..ROWS {
        let tape = sound(rng);
        row(count, rng, tape);
    }
    for head in [-L, L] {
        let whole = Side::new(&[(1, 1 << 63)]);
        let (left, right) = if head == L { (whole, Side::default()) } else { (Side::default(), whole) };
        let tape = Tape { symbols: 2, head, cur: 1, left, right };
        for _ in 0..200 {
            row(count, rng, tape.clone());
        }
    }
}

fn row(count: &mut Count, rng: &mut Rng, tape: Tape) {
    let near = rng.within(1, 40);
    let width = rng.pick(&[1, 2, 3, near, near, near, 997]);
    let any = width + rng.of_any_size(MOST_CELLS - width);
    let around = cells_over(width);
    let cells = if rng.one_in(2) { rng.pick(&around) } else { any };
    let borders = landmarks(&tape);
    let place = rng.pick(&borders).cast_unsigned() ^ ZERO;
    let around = place.saturating_sub(rng.below(cells)).clamp(LOWEST, HIGHEST - (cells - 1));
    let first = if rng.one_in(8) { first(rng, cells) } else { around };
    let within: Vec<i64> = borders.into_iter().filter(|position| (-L..=L).contains(position)).collect();
    let (a, b) = (rng.pick(&within), rng.pick(&within));
    let swept = rng.one_in(2).then_some((a.min(b), a.max(b)));
    count.take(&BinRow { tape, width, first, cells, swept });
}
