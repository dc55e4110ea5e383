//! Those of the worked pictures (RULES) that are about rows, drawn by the library and compared with the original.

use random::Rng;

use crate::calls::{Fit, FitExact, FitOverview, MOST_CELLS, Picture, Source};
use crate::count::Count;
use crate::ffi::Lending;
use crate::orders::{ExactOrder, Frame, OverviewOrder};
use crate::tape::{Side, Tape};

pub fn run(count: &mut Count, _: &mut Rng) {
    cells_of_two_pixels(count);
    bins_of_ten_cells(count);
    one_cell_of_most(count);
}

fn cells_of_two_pixels(count: &mut Count) {
    let frame = Frame { width: 8, height: 4, symbols: 2 };
    let order = ExactOrder { first_step: 0, size: Some(2), heads: vec![0, 1], written: Some((0, 0)), halted: false };
    let rows = [tape(0, 1, &[]), tape(1, 0, &[(1, 1)])];
    let picture = Picture { fit: Fit::Exact(FitExact { frame, order }), rows: rows.map(unswept).to_vec() };
    let (lending, units) = drawn(count, &picture);
    let wanted = [[0, 0, 255, 255, 0, 0, 0, 0], [0, 0, 64, 64, 255, 255, 0, 0]];
    let wanted = [wanted[0], wanted[0], wanted[1], wanted[1]].concat();
    count.equal("picture 1, index", &lending.index(), &&wanted[..]);
    count.equal("picture 1, store", &lending.store(), &&[0, 1, 0, 0, 0, 1, 0, 0][..]);
    count.equal("picture 1, units", &units, &vec![1, 1]);
}

fn bins_of_ten_cells(count: &mut Count) {
    let frame = Frame { width: 4, height: 3, symbols: 2 };
    let fit = Fit::Overview(FitOverview { frame, order: OverviewOrder { total: 5, extent: (0, 9) } });
    let rows = [tape(100, 0, &[(1, 1), (0, 97)]), tape(2, 1, &[])];
    let (lending, units) = drawn(count, &Picture { fit, rows: rows.map(unswept).to_vec() });
    count.equal("picture 4, index", &lending.index(), &&[19, 19, 0, 0, 19, 255, 0, 0, 0, 0, 0, 0][..]);
    count.equal("picture 4, tallies", &lending.tallies(), &&[2, 2, 0, 0][..]);
    count.equal("picture 4, units", &units, &vec![4, 4]);
}

fn one_cell_of_most(count: &mut Count) {
    let frame = Frame { width: 1, height: 1, symbols: 2 };
    let fit = Fit::Overview(FitOverview { frame, order: OverviewOrder { total: 0, extent: (1, MOST_CELLS as i64) } });
    let written = Tape { right: Side::new(&[(1, 1)]), ..tape(0, 0, &[]) };
    let (lending, units) = drawn(count, &Picture { fit, rows: vec![unswept(written)] });
    count.equal("picture 9, index", &lending.index(), &&[8][..]);
    count.equal("picture 9, units", &units, &vec![1]);
}

fn tape(head: i64, cur: u8, left: &[(u8, u64)]) -> Tape {
    Tape { symbols: 2, head, cur, left: Side::new(left), right: Side::default() }
}

fn unswept(tape: Tape) -> Source {
    Source { tape, swept: None }
}

/// Compares a picture as any other, then draws it again and gives what the library left, and the units of its rows.
fn drawn(count: &mut Count, picture: &Picture) -> (Lending, Vec<u64>) {
    count.take(picture);
    let mut lending = Picture::lent(&picture.fit.model().expect("a worked picture"));
    let opened = lending.open().number;
    let units = picture.rows.iter().flat_map(|row| lending.row(&row.tape, row.swept).output).collect();
    count.equal("a worked picture is opened", &opened, &0);
    (lending, units)
}
