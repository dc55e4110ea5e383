//! A mark left and a mark right of the head with other ink between, at every width. A row drawn with a place in the bins
//! that only moves right, or that is kept from run to run, loses one of them.

use random::Rng;

use crate::calls::{Fit, FitOverview, MOST_CELLS, Picture, Source};
use crate::columns::MOST_PIXELS;
use crate::count::Count;
use crate::model::Stretch;
use crate::orders::{Frame, OverviewOrder};
use crate::tape::Tape;
use crate::tapes::written;

pub fn run(count: &mut Count, _: &mut Rng) {
    for width in 1..=MOST_PIXELS as i64 {
        let most = MOST_CELLS as i64;
        for cells in [width, width + 1, 3 * width + 7, most - width] {
            let low = -(cells / 3);
            let heads = [low + cells / 2, low + cells / 8, low + cells - 1 - cells / 8];
            let rows = heads.map(|head| Source { tape: marked(low, cells, head), swept: None });
            let frame = Frame { width: width as u32, height: 3, symbols: 3 };
            let order = OverviewOrder { total: 2, extent: (low, low + (cells - 1)) };
            count.take(&Picture { fit: Fit::Overview(FitOverview { frame, order }), rows: rows.to_vec() });
        }
    }
}

/// Marks of one cell on the window's two ends, and ink between them on both sides of its middle.
fn marked(low: i64, cells: i64, head: i64) -> Tape {
    let places =
        [(0, 0, 1), (cells / 4, cells * 3 / 8, 2), (cells * 5 / 8, cells * 3 / 4, 2), (cells - 1, cells - 1, 1)];
    let mut stretches: Vec<Stretch> = Vec::new();
    for (from, to, symbol) in places {
        let [from, to] = [from, to].map(|place| i128::from(low) + i128::from(place));
        if stretches.last().is_none_or(|last| last.high < from) {
            stretches.push(Stretch { low: from, high: to, symbol });
        }
    }
    written(3, head, &stretches)
}
