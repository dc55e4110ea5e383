//! The library on those of the worked pictures (RULES) that are about clicks.

use random::Rng;

use crate::count::Count;
use crate::ffi::{Clicked, Clicking};
use crate::orders::{ExactOrder, Frame, OverviewOrder};
use crate::record::{DONE, ROWS, Record};

pub fn run(count: &mut Count, _: &mut Rng) {
    stored_symbols(count);
    bins_of_ten_cells(count);
    margins(count);
}

/// What a click that is taken finds: step, symbol, from and to.
type Shown = Option<(u64, Option<u64>, i64, i64)>;

fn shown(clicking: &mut Clicking, x: u32, y: u32) -> Shown {
    let Clicked { number, found, cells, .. } = clicking.click(x, y);
    assert_eq!(number, 0, "a record and a store that are taken");
    (found[0] == 1).then(|| (found[1], (found[2] == 1).then_some(found[3]), cells[0], cells[1]))
}

fn drawn(record: Record) -> Record {
    record.with(DONE, record.0[ROWS])
}

fn overview(width: u32, height: u32, total: u64, extent: (i64, i64)) -> Record {
    let frame = Frame { width, height, symbols: 2 };
    drawn(OverviewOrder { total, extent }.fit(frame).expect("an order that is taken"))
}

fn stored_symbols(count: &mut Count) {
    let frame = Frame { width: 8, height: 4, symbols: 2 };
    let order = ExactOrder { first_step: 0, size: Some(2), heads: vec![0, 1], written: Some((0, 0)), halted: false };
    let record = drawn(order.fit(frame).expect("an order that is taken"));
    let mut clicking = Clicking::new(&record, &[0, 1, 0, 0, 0, 1, 0, 0]);
    count.equal("picture 2, (0, 3)", &shown(&mut clicking, 0, 3), &Some((1, Some(0), -1, -1)));
    count.equal("picture 2, (2, 0)", &shown(&mut clicking, 2, 0), &Some((0, Some(1), 0, 0)));
}

fn bins_of_ten_cells(count: &mut Count) {
    let record = overview(4, 3, 5, (0, 9));
    let mut clicking = Clicking::new(&record, &[]);
    for (y, step) in [(0, 0), (1, 3), (2, 5)] {
        for (x, (from, to)) in (0..).zip([(0, 2), (2, 4), (5, 7), (7, 9)]) {
            count.equal("picture 3", &shown(&mut clicking, x, y), &Some((step, None, from, to)));
        }
    }
}

fn margins(count: &mut Count) {
    let record = overview(20, 10, 4, (0, 2));
    let store = vec![1; record.store_length()];
    let mut clicking = Clicking::new(&record, &store);
    for y in 0..10 {
        let step = u64::from(y / 2);
        for x in [0, 19] {
            count.equal("picture 6, a margin", &shown(&mut clicking, x, y), &None);
        }
        for (x, cell) in [(1, 0), (6, 0), (7, 1), (18, 2)] {
            count.equal("picture 6, a cell", &shown(&mut clicking, x, y), &Some((step, Some(1), cell, cell)));
        }
    }
}
