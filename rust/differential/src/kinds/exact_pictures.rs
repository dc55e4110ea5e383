//! Fits of exact pictures: every small one, those at each bound, any of the domain, and those that are refused.

use random::Rng;

use super::overviews::{SIDES, any_frame, any_position, damaged_frame, damaged_position, spans};
use crate::calls::FitExact;
use crate::count::Count;
use crate::orders::{ExactOrder, Frame, Pair};
use crate::tape::L;

const RANDOM: u32 = 60_000;
const DAMAGED: u32 = 60_000;

pub fn run(count: &mut Count, rng: &mut Rng) {
    small(count);
    spans_at_bounds(count);
    rows_at_bounds(count);
    for _ in 0..RANDOM {
        count.take(&any(rng));
    }
    for _ in 0..DAMAGED {
        let order = damaged(rng);
        count.take(&order);
    }
}

fn small(count: &mut Count) {
    let walks = walks();
    let written = [None, Some((0, 0)), Some((-1, 1)), Some((2, 4)), Some((-5, -3)), Some((-3, 3))];
    let sizes = [None, Some(0), Some(1), Some(2), Some(3), Some(4), Some(9)];
    for (width, height) in (1..=7).flat_map(|width| (1..=5).map(move |height| (width, height))) {
        for (size, written) in sizes.iter().flat_map(|&size| written.map(|written| (size, written))) {
            for (heads, halted) in walks.iter().flat_map(|heads| [(heads, false), (heads, true)]) {
                let order = ExactOrder { first_step: 3, size, heads: heads.clone(), written, halted };
                count.take(&FitExact { frame: Frame { width, height, symbols: 2 }, order });
            }
        }
    }
}

/// No heads, and one to three of them on a few positions.
fn walks() -> Vec<Vec<i64>> {
    let places = [-2, 0, 1, 4];
    let mut all = vec![vec![]];
    let mut longest = all.clone();
    for _ in 0..3 {
        let longer = |walk: &Vec<i64>| places.map(|place| [&walk[..], &[place]].concat());
        longest = longest.iter().flat_map(longer).collect();
        all.extend(longest.iter().cloned());
    }
    all
}

/// Pairs and heads whose span is at and beside what the width, its parts and the bins take, all over the domain.
fn spans_at_bounds(count: &mut Count) {
    let sizes = [None, Some(0), Some(1), Some(2), Some(3), Some(7), Some(8), Some(9), Some(4096), Some(u32::MAX)];
    for (width, height) in SIDES.iter().flat_map(|&width| [1, 2, 8, 31, 4096].map(|height| (width, height))) {
        for span in spans(width).into_iter().chain((2..=8).flat_map(|p| parts(width, p))) {
            for low in [-L, -L - 1, -L + 1, -span / 2, 0, L - span, L - span + 1, L - span + 2] {
                let high = low + (span - 1);
                let orders = [(vec![low], Some((low, high))), (vec![high, low], None), (vec![low], Some((high, high)))];
                for (size, (heads, written)) in sizes.iter().flat_map(|&size| orders.clone().map(|order| (size, order)))
                {
                    let order = ExactOrder { first_step: u64::MAX - 1, size, heads, written, halted: false };
                    count.take(&FitExact { frame: Frame { width, height, symbols: 64 }, order });
                }
            }
        }
    }
}

fn parts(width: u32, p: u32) -> impl Iterator<Item = i64> {
    let part = i64::from(width / p);
    [part, part + 1].into_iter().filter(|&span| span > 0)
}

/// As many heads as rows are wanted or taken, and one more or less; the heads stay, drift or leap late.
fn rows_at_bounds(count: &mut Count) {
    for height in [1, 2, 7, 8, 31, 32, 33, 63, 64, 65, 255, 256, 257, 4095, 4096] {
        for size in [None, Some(1), Some(2), Some(3), Some(8), Some(64), Some(4096)] {
            for width in [1, 8, 40, 300, 4096] {
                let frame = Frame { width, height, symbols: 2 };
                for (heads, halted) in lengths(frame, size).into_iter().flat_map(|n| [(n, false), (n, true)]) {
                    for leap in [0, 1, i64::from(width)] {
                        let at = |row: usize| if row + 1 == heads { leap } else { row as i64 % 3 };
                        let heads = (0..heads).map(at).collect();
                        let order = ExactOrder { first_step: 0, size, heads, written: None, halted };
                        count.take(&FitExact { frame, order });
                    }
                }
            }
        }
    }
}

fn lengths(frame: Frame, size: Option<u32>) -> Vec<usize> {
    let order = ExactOrder { first_step: 0, size, heads: Vec::new(), written: None, halted: false };
    let limit = order.row_limit(frame);
    let parts = (1..=8).map(|p| (frame.height / p) as usize);
    let mut lengths: Vec<usize> =
        parts.chain([limit, 31, 32, 33]).flat_map(|rows| [rows.saturating_sub(1), rows, rows + 1]).collect();
    lengths.retain(|&rows| rows <= limit + 1);
    lengths.sort_unstable();
    lengths.dedup();
    lengths
}

fn any(rng: &mut Rng) -> FitExact {
    let frame = any_frame(rng);
    FitExact { frame, order: any_order(rng, frame) }
}

pub fn any_order(rng: &mut Rng, frame: Frame) -> ExactOrder {
    let size = rng.pick(&[None, None, Some(0), Some(1), Some(2), Some(5), Some(8), Some(4096), Some(u32::MAX)]);
    let any_size = rng.of_any_size(4096) as u32;
    let size = if rng.one_in(4) { Some(any_size) } else { size };
    let any_step = rng.of_any_size(u64::MAX);
    let mut order = ExactOrder {
        first_step: rng.pick(&[0, any_step, any_step, u64::MAX - 5, u64::MAX]),
        size,
        heads: Vec::new(),
        written: None,
        halted: rng.one_in(2),
    };
    let limit = order.row_limit(frame);
    let few = rng.of_any_size(limit as u64) as usize;
    let part = rng.pick(&lengths(frame, size)).clamp(1, limit);
    let rows = rng.pick(&[few, few, part]);
    order.heads = any_walk(rng, frame, rows);
    order.written = any_written(rng, frame, order.heads[0]);
    order
}

/// A walk that keeps to a width or leaves it, and may leap once.
fn any_walk(rng: &mut Rng, frame: Frame, rows: usize) -> Vec<i64> {
    let mut at = any_position(rng);
    let drift = rng.pick(&[0, 0, 1, -1]);
    let leap = rng.below(2 * rows as u64) as usize;
    let far = rng.pick(&spans(frame.width));
    let mut heads = Vec::with_capacity(rows);
    for row in 0..rows {
        heads.push(at);
        let step = if drift == 0 { rng.pick(&[-1, 0, 1]) } else { drift };
        let step = if row == leap { far } else { step };
        at = at.saturating_add(step).clamp(-L, L);
    }
    heads
}

fn any_written(rng: &mut Rng, frame: Frame, head: i64) -> Option<Pair> {
    if rng.one_in(3) {
        return None;
    }
    let span = rng.pick(&spans(frame.width));
    let back = rng.below(span as u64) as i64;
    let elsewhere = any_position(rng);
    let around = if rng.one_in(4) { elsewhere } else { head };
    let low = around.saturating_sub(back).clamp(-L, L);
    Some((low, low.saturating_add(span - 1).clamp(-L, L)))
}

/// An order with some of its numbers at or beside their bounds, so that some fail more than one check.
fn damaged(rng: &mut Rng) -> FitExact {
    let FitExact { frame, mut order } = any(rng);
    if rng.one_in(3) {
        let place = rng.below(order.heads.len() as u64) as usize;
        let place = rng.pick(&[0, place, order.heads.len() - 1]);
        order.heads[place] = damaged_position(rng, order.heads[place].clamp(-L, L));
    }
    if rng.one_in(3) {
        let (low, high) = order.written.unwrap_or((0, 0));
        let (low, high) = rng.pick(&[(high, low), (low, high)]);
        let (worse, much_worse) = (damaged_position(rng, low), damaged_position(rng, high));
        order.written = Some(rng.pick(&[(low, high), (worse, high), (low, much_worse), (worse, much_worse)]));
    }
    if rng.one_in(4) {
        order.heads.clear();
    } else if rng.one_in(3) {
        let head = order.heads[0];
        order.heads.resize(order.row_limit(frame) + rng.pick(&[0, 1, 1, 2]), head);
    }
    FitExact { frame: if rng.one_in(3) { damaged_frame(rng, frame) } else { frame }, order }
}
