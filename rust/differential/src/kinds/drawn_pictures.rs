//! Whole pictures of random tapes: fitted, opened and drawn row by row, exact and overview, in cells and in bins.

use random::Rng;

use super::exact_pictures;
use super::overviews::{self, any_position};
use crate::calls::{Fit, FitExact, FitOverview, Picture, Source};
use crate::columns::ZERO;
use crate::count::Count;
use crate::orders::{Frame, Pair};
use crate::record::{CELLS, EXACT, FIRST, ROWS, Record, SYMBOLS};
use crate::tape::{L, Tape};
use crate::tapes::{for_row, landmarks};

const SMALL: u32 = 50_000;
const LARGE: u32 = 200;

/// How many rows of a large picture are drawn.
const FEW: usize = 6;

pub fn run(count: &mut Count, rng: &mut Rng) {
    for _ in 0..SMALL {
        let most = rng.pick(&[4, 12, 40, 40, 90]);
        let (width, height) = (rng.within(1, most), rng.within(1, most.min(40)));
        let picture = any(rng, width, height, usize::MAX);
        count.take(&picture);
    }
    for _ in 0..LARGE {
        let (width, height) = (rng.pick(&[1000, 2048, 4093, 4095, 4096]), rng.within(1, 300));
        let (width, height) = if rng.one_in(4) { (height, width) } else { (width, height) };
        let picture = any(rng, width, height, FEW);
        count.take(&picture);
    }
}

/// A picture whose fit is taken, with its rows or the first of them, and at times a call too many.
fn any(rng: &mut Rng, width: u64, height: u64, most: usize) -> Picture {
    let any = rng.within(1, 64);
    let symbols = rng.pick(&[1, 2, 2, 3, 64, any]) as u32;
    let frame = Frame { width: width as u32, height: height as u32, symbols };
    let (fit, record) = loop {
        let fit = if rng.one_in(2) {
            Fit::Exact(FitExact { frame, order: exact_pictures::any_order(rng, frame) })
        } else {
            Fit::Overview(FitOverview { frame, order: overviews::any_order(rng, frame) })
        };
        if let Ok(record) = fit.model() {
            break (fit, record);
        }
    };
    let rows = (record.0[ROWS] as usize + usize::from(rng.one_in(8))).min(most);
    let rows = (0..rows)
        .map(|row| {
            let walked = match &fit {
                Fit::Exact(fit) => fit.order.heads.get(row).copied(),
                Fit::Overview(_) => None,
            };
            source(rng, &record, walked)
        })
        .collect();
    Picture { fit, rows }
}

/// A tape whose head is where the walk has it or anywhere around the window or beyond, and in an overview a swept pair
/// or none. Now and then it is a pair that is refused, or a tape that is not joined.
pub fn source(rng: &mut Rng, record: &Record, walked: Option<i64>) -> Source {
    let head = walked.filter(|_| !rng.one_in(4)).unwrap_or_else(|| head(rng, record));
    let tape = for_row(rng, record.0[SYMBOLS], head);
    let wanted = if record.0[EXACT] == 1 { rng.one_in(50) } else { rng.one_in(2) };
    let swept = wanted.then(|| swept(rng, record, &tape));
    Source { tape, swept }
}

fn head(rng: &mut Rng, record: &Record) -> i64 {
    let [first, last] = ends(record);
    let inside = first + i128::from(rng.below(record.0[CELLS]));
    let far = i128::from(any_position(rng));
    let head = rng.pick(&[inside, inside, inside, inside, first - 1, first, last, last + 1, far, far]);
    head.clamp(i128::from(-L), i128::from(L)) as i64
}

fn ends(record: &Record) -> [i128; 2] {
    let first = i128::from(record.0[FIRST]) - i128::from(ZERO);
    [first, first + i128::from(record.0[CELLS]) - 1]
}

fn swept(rng: &mut Rng, record: &Record, tape: &Tape) -> Pair {
    let beside = ends(record).into_iter().flat_map(|end| [end - 1, end, end + 1]);
    let places = landmarks(tape).into_iter().chain(beside.filter_map(|place| i64::try_from(place).ok()));
    let places: Vec<i64> = places.filter(|place| (-L..=L).contains(place)).collect();
    let (a, b) = (rng.pick(&places), rng.pick(&places));
    if rng.one_in(30) { (a, b) } else { (a.min(b), a.max(b)) }
}
