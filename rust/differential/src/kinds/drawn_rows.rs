//! Single rows on sound records that need not be those of a fit, in memory that holds anything.

use random::Rng;

use super::drawn_pictures::source;
use super::records;
use crate::calls::{Row, Source};
use crate::columns::ZERO;
use crate::count::Count;
use crate::record::{CELLS, EXACT, FIRST, Record};
use crate::tape::{L, Side, Tape};

const ROWS: u32 = 60_000;

/// Each row goes through every byte, so larger pictures are left out.
const SMALL: usize = 1 << 13;

pub fn run(count: &mut Count, rng: &mut Rng) {
    for _ in 0..ROWS {
        let record = small(rng);
        let Source { tape, swept } = source(rng, &record, None);
        count.take(&Row::on(record, tape, swept));
    }
    for _ in 0..ROWS / 100 {
        far_run(count, rng);
    }
}

fn small(rng: &mut Rng) -> Record {
    loop {
        let record = records::sound(rng);
        if record.index_length() <= SMALL {
            return record;
        }
    }
}

/// A run from one end of the domain to the other, in a window at its far end.
fn far_run(count: &mut Count, rng: &mut Rng) {
    let record = small(rng);
    let cells = record.0[CELLS];
    let head = rng.pick(&[-L, L]);
    let whole = Side::new(&[(1, 1 << 63)]);
    let (left, right) = if head == L { (whole, Side::default()) } else { (Side::default(), whole) };
    let last = (L.cast_unsigned() ^ ZERO) - (cells - 1);
    let first = if head == L { (-L).cast_unsigned() ^ ZERO } else { last };
    let record = record.with(FIRST, first).with(EXACT, 0).with(crate::record::SYMBOLS, 2);
    count.take(&Row::on(record, Tape { symbols: 2, head, cur: 1, left, right }, None));
}
