//! Fits of overviews: every small one, those at each bound, any of the domain, and those that are refused.

use random::Rng;

use crate::calls::{FitOverview, MOST_CELLS};
use crate::columns::MOST_PIXELS;
use crate::count::Count;
use crate::orders::{Frame, OverviewOrder};
use crate::tape::L;

const RANDOM: u32 = 150_000;
const DAMAGED: u32 = 150_000;

pub const SIDES: [u32; 12] = [1, 2, 3, 7, 8, 9, 16, 33, 1000, 4094, 4095, 4096];

pub fn run(count: &mut Count, rng: &mut Rng) {
    small(count);
    bounds(count);
    for _ in 0..RANDOM {
        count.take(&any(rng));
    }
    for _ in 0..DAMAGED {
        count.take(&damaged(rng));
    }
}

fn overview(width: u32, height: u32, total: u64, extent: (i64, i64)) -> FitOverview {
    FitOverview { frame: Frame { width, height, symbols: 2 }, order: OverviewOrder { total, extent } }
}

fn small(count: &mut Count) {
    for (width, height) in (1..=12).flat_map(|width| (1..=9).map(move |height| (width, height))) {
        for span in 1..=i64::from(width) + 2 {
            for total in 0..=20 {
                count.take(&overview(width, height, total, (-2, span - 3)));
            }
        }
    }
}

fn bounds(count: &mut Count) {
    for (width, height) in SIDES.iter().flat_map(|&width| SIDES.map(|height| (width, height))) {
        for span in spans(width) {
            for low in [-L, -L - 1, -L + 1, -span / 2, 0, L - span, L - span + 1, L - span + 2] {
                for total in totals(height) {
                    count.take(&overview(width, height, total, (low, low + (span - 1))));
                }
            }
        }
        count.take(&overview(width, height, 1, (-L, L)));
    }
}

/// Spans around the width, its multiples and its parts, and around the most cells.
pub fn spans(width: u32) -> Vec<i64> {
    let (width, most) = (i64::from(width), MOST_CELLS as i64);
    let mut spans = vec![1, 2, width / 8, width / 8 + 1, width / 2, width / 2 + 1, width - 1, width, width + 1];
    spans.extend([most - 1, most, most + 1, L / 3, i64::MAX]);
    spans.retain(|&span| span > 0);
    spans.sort_unstable();
    spans.dedup();
    spans
}

/// Steps around those at which stride and rows change.
fn totals(height: u32) -> [u64; 9] {
    let rows = u64::from(height);
    [0, 1, rows / 2, rows - 1, rows, 2 * rows - 2, 2 * rows - 1, u64::MAX - 1, u64::MAX]
}

fn any(rng: &mut Rng) -> FitOverview {
    let frame = any_frame(rng);
    FitOverview { frame, order: any_order(rng, frame) }
}

pub fn any_order(rng: &mut Rng, frame: Frame) -> OverviewOrder {
    OverviewOrder { total: any_total(rng, frame.height), extent: any_extent(rng, frame) }
}

pub fn any_frame(rng: &mut Rng) -> Frame {
    let mut side = || {
        let (any, even) = (rng.of_any_size(MOST_PIXELS), rng.within(1, MOST_PIXELS));
        rng.pick(&[any as u32, any as u32, even as u32, 1, 4096])
    };
    let (width, height) = (side(), side());
    Frame { width, height, symbols: rng.within(1, 64) as u32 }
}

fn any_total(rng: &mut Rng, height: u32) -> u64 {
    let any = rng.of_any_size(u64::MAX);
    let whole = rng.below(1 << 20) * u64::from(height.max(2) - 1);
    let ends = rng.pick(&totals(height.max(1)));
    rng.pick(&[any, whole, whole + 1, ends])
}

fn any_extent(rng: &mut Rng, frame: Frame) -> (i64, i64) {
    let near = rng.pick(&spans(frame.width));
    let small = rng.of_any_size(2 * MOST_PIXELS) as i64;
    let large = rng.of_any_size(MOST_CELLS) as i64;
    let span = rng.pick(&[near, small, small, large]);
    let low = any_position(rng).min(L - (span - 1)).max(-L);
    (low, low + (span - 1))
}

/// A position of the domain.
pub fn any_position(rng: &mut Rng) -> i64 {
    let near = rng.within(0, 20_000) as i64 - 10_000;
    let any = rng.within(0, 2 * L as u64) as i128 - i128::from(L);
    let sized = rng.of_any_size(L as u64) as i64;
    rng.pick(&[near, near, any as i64, sized, -sized, L, -L])
}

/// An order with some of its numbers at or beside their bounds, so that some fail more than one check.
fn damaged(rng: &mut Rng) -> FitOverview {
    let FitOverview { frame, mut order } = any(rng);
    let frame = damaged_frame(rng, frame);
    if rng.one_in(2) {
        order.extent.0 = damaged_position(rng, order.extent.0);
    }
    if rng.one_in(2) {
        order.extent.1 = damaged_position(rng, order.extent.1);
    }
    if rng.one_in(4) {
        order.extent = (order.extent.1, order.extent.0);
    }
    FitOverview { frame, order }
}

pub fn damaged_frame(rng: &mut Rng, frame: Frame) -> Frame {
    let side = |rng: &mut Rng, side: u32| {
        let odd = rng.pick(&[0, 1, 4096, 4097, u32::MAX]);
        if rng.one_in(8) { odd } else { side }
    };
    let (width, height) = (side(rng, frame.width), side(rng, frame.height));
    let symbols = if rng.one_in(4) { rng.pick(&[0, 1, 64, 65, u32::MAX]) } else { frame.symbols };
    Frame { width, height, symbols }
}

pub fn damaged_position(rng: &mut Rng, position: i64) -> i64 {
    let any = rng.number().cast_signed();
    rng.pick(&[position - 1, position + 1, -L, -L - 1, L, L + 1, i64::MIN, i64::MIN + 1, i64::MAX, any])
}
