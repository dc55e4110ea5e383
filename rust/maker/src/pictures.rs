//! Fits, and pictures that are opened, drawn row by row and clicked on.

use random::Rng;
use reference::{Exact, Overview, Pair, Picture};

use crate::list::{Case, Kind, List, offset};
use crate::tapes::{L, Tape, any_position, any_tape};

const FITS: u32 = 300;
const PICTURES: u32 = 360;

/// Refusal 6 begins above it.
const MOST_CELLS: u64 = 1 << 50;

/// How many rows of a picture are drawn, and how many of its pixels are clicked on at each stage.
const ROWS: u32 = 5;
const CLICKS: u64 = 5;

/// Pictures of so few pixels are clicked on everywhere.
const FEW_PIXELS: u32 = 48;

#[derive(Copy, Clone)]
struct Frame {
    width: u32,
    height: u32,
    symbols: u32,
}

pub fn add(list: &mut List, rng: &mut Rng) {
    worked(list, rng);
    sizes(list);
    bounds(list);
    for _ in 0..FITS {
        let frame = any_frame(rng, 4096);
        any_fit(list, rng, frame);
    }
    for _ in 0..PICTURES {
        let most = rng.pick(&[3, 6, 12, 20]);
        let frame = any_frame(rng, most);
        if let Some(picture) = any_fit(list, rng, frame) {
            draw(list, rng, picture, &[]);
        }
    }
}

/// Those of the worked pictures (RULES) that are about pictures.
fn worked(list: &mut List, rng: &mut Rng) {
    let tape = |head: i64, cur: u8, left: &[(u8, u64)]| Tape { head, cur, left: left.to_vec(), right: Vec::new() };
    let frame = |width, height| Frame { width, height, symbols: 2 };
    let order = Exact { first_step: 0, cell_px: Some(2), heads: &[0, 1], written: Some((0, 0)), halted: false };
    if let Some(picture) = fit_exact(list, frame(8, 4), &order) {
        draw(list, rng, picture, &[tape(0, 1, &[]), tape(1, 0, &[(1, 1)])]);
    }
    if let Some(picture) = fit_overview(list, frame(4, 3), 5, (0, 9)) {
        draw(list, rng, picture, &[tape(100, 0, &[(1, 1), (0, 97)]), tape(2, 1, &[])]);
    }
    for (total, extent) in [(5, (0, 9)), (0, (0, 9)), (5, (0, 0)), (0, (0, 0))] {
        if let Some(picture) = fit_overview(list, frame(4, 1), total, extent) {
            draw(list, rng, picture, &[]);
        }
    }
    if let Some(picture) = fit_overview(list, frame(20, 10), 4, (0, 2)) {
        draw(list, rng, picture, &[]);
    }
    for last in [4095, 4096] {
        fit_overview(list, frame(4096, 2), 1, (0, last));
    }
    for first in [1, -L, L - MOST_CELLS as i64 + 1] {
        if let Some(picture) = fit_overview(list, frame(1, 1), 0, (first, first + MOST_CELLS as i64 - 1)) {
            let written = Tape { right: vec![(1, 1)], ..tape(first.max(1 - L) - 1, 0, &[]) };
            draw(list, rng, picture, &[written]);
        }
    }
}

/// Widths and heights at the bounds of what is taken, and beside them.
fn sizes(list: &mut List) {
    for width in [0, 1, 2, 4095, 4096, 4097, u32::MAX] {
        for height in [0, 1, 2, 4095, 4096, 4097, u32::MAX] {
            let frame = Frame { width, height, symbols: 2 };
            fit_overview(list, frame, 9, (0, 2));
            let order = Exact { first_step: 7, cell_px: Some(1), heads: &[0], written: None, halted: true };
            fit_exact(list, frame, &order);
        }
    }
}

/// Spans and totals at and beside their bounds, heads on the domain's ends, and as many heads as there may be.
fn bounds(list: &mut List) {
    for width in [1, 2, 7, 8, 9, 16, 17, 4096] {
        for span in [1, width / 8, width / 8 + 1, width / 2, width - 1, width, width + 1, 2 * width + 1] {
            for low in [-L, 0, L - i64::from(span.max(1)) + 1] {
                let extent = (low, low + i64::from(span.max(1)) - 1);
                let frame = Frame { width, height: 5, symbols: 64 };
                fit_overview(list, frame, 4, extent);
                let heads = [extent.0, extent.1];
                let order =
                    |cell_px| Exact { first_step: u64::MAX - 1, cell_px, heads: &heads, written: None, halted: true };
                fit_exact(list, frame, &order(None));
                fit_exact(list, frame, &order(Some(2)));
            }
        }
    }
    for height in [1, 2, 3, 4095, 4096] {
        let rows = u64::from(height) - 1;
        for total in [0, 1, rows, rows + 1, 2 * rows, 2 * rows + 1, 1 << 32, u64::MAX - 1, u64::MAX] {
            fit_overview(list, Frame { width: 3, height, symbols: 1 }, total, (-1, 1));
            fit_overview(list, Frame { width: 3, height, symbols: 1 }, total, (-9, 9));
        }
    }
    for (height, size) in [(64, None), (64, Some(0)), (64, Some(1)), (65, Some(2)), (300, Some(9)), (257, None)] {
        let limit = height / size.unwrap_or(1u32).max(1);
        for count in [1, 31, 32, 33, limit].into_iter().filter(|&count| count <= limit) {
            let heads: Vec<i64> = (0..i64::from(count)).collect();
            for halted in [false, true] {
                let order = Exact { first_step: 1, cell_px: size, heads: &heads, written: Some((-3, 3)), halted };
                fit_exact(list, Frame { width: 64, height, symbols: 3 }, &order);
            }
        }
    }
}

fn any_frame(rng: &mut Rng, most: u64) -> Frame {
    let any = rng.within(1, 64);
    let symbols = rng.pick(&[1, 2, 2, 3, 64, any]) as u32;
    let mut side = || {
        let any = rng.within(1, most);
        let sized = rng.of_any_size(most);
        rng.pick(&[any, sized]) as u32
    };
    Frame { width: side(), height: side(), symbols }
}

fn any_fit(list: &mut List, rng: &mut Rng, frame: Frame) -> Option<Picture> {
    if rng.one_in(2) { any_exact(list, rng, frame) } else { any_overview(list, rng, frame) }
}

fn any_overview(list: &mut List, rng: &mut Rng, frame: Frame) -> Option<Picture> {
    let any = rng.of_any_size(u64::MAX);
    let few = rng.below(3 * u64::from(frame.height));
    let total = rng.pick(&[0, 1, few, few, any, u64::MAX]);
    let span = any_span(rng, frame.width);
    let low = any_position(rng).min(L - (span - 1));
    fit_overview(list, frame, total, (low, low + (span - 1)))
}

fn any_exact(list: &mut List, rng: &mut Rng, frame: Frame) -> Option<Picture> {
    let size = rng.pick(&[None, None, Some(0), Some(1), Some(2), Some(5), Some(u32::MAX)]);
    let held = size.map_or(1, |size: u32| size.clamp(1, frame.width.min(frame.height)));
    let rows = rng.of_any_size(u64::from(frame.height / held).min(60));
    let leap = rng.below(2 * rows);
    let far = any_span(rng, frame.width);
    let mut at = any_position(rng);
    let mut heads = Vec::new();
    for row in 0..rows {
        heads.push(at);
        let step = if row == leap { far } else { rng.pick(&[-1, 0, 1]) };
        at = at.saturating_add(step).clamp(-L, L);
    }
    let span = any_span(rng, frame.width);
    let low = rng.pick(&heads).saturating_sub(rng.below(span as u64) as i64).clamp(-L, L - (span - 1));
    let written = (!rng.one_in(3)).then_some((low, low + (span - 1)));
    let any = rng.of_any_size(u64::MAX);
    let first_step = rng.pick(&[0, any, u64::MAX - 1, u64::MAX]);
    let order = Exact { first_step, cell_px: size, heads: &heads, written, halted: rng.one_in(2) };
    fit_exact(list, frame, &order)
}

/// A number of cells around those that part cells from bins.
fn any_span(rng: &mut Rng, width: u32) -> i64 {
    let width = i64::from(width);
    let any = rng.of_any_size(MOST_CELLS / 2) as i64;
    let within = rng.within(1, width as u64) as i64;
    rng.pick(&[1, 2, within, within, width - 1, width, width + 1, 3 * width, any]).max(1)
}

/// Adds the fit, with its window and some of its rows, and gives its picture; nothing where the original refuses the size,
/// and no case where the rules have a bound that the original has not.
fn fit_exact(list: &mut List, frame: Frame, order: &Exact) -> Option<Picture> {
    let Frame { width, height, symbols } = frame;
    let picture = Picture::exact(width, height, symbols, order);
    let heads = order.heads.iter().map(|&head| offset(head));
    let case = Case::default()
        .words(&[width, height, symbols].map(u64::from))
        .word(order.first_step)
        .word(order.cell_px.is_some())
        .word(order.cell_px.unwrap_or(u32::MAX))
        .pair(order.written)
        .word(order.halted)
        .word_list(heads);
    fitted(list, Kind::FitExact, case, picture)
}

fn fit_overview(list: &mut List, frame: Frame, total: u64, extent: Pair) -> Option<Picture> {
    let Frame { width, height, symbols } = frame;
    let picture = Picture::overview(width, height, symbols, &Overview { total, extent });
    let case = Case::default().words(&[width, height, symbols].map(u64::from)).word(total);
    let case = case.position(extent.0).position(extent.1);
    fitted(list, Kind::FitOverview, case, picture)
}

fn fitted(list: &mut List, kind: Kind, case: Case, picture: Option<Picture>) -> Option<Picture> {
    let Some(picture) = picture else {
        list.add(kind, &case.word(true));
        return None;
    };
    if let reference::Columns::Bins { cells, .. } = picture.grid().columns
        && cells > MOST_CELLS
    {
        return None;
    }
    list.add(kind, &case.word(false).words(&picture.record()));
    let (low, high) = picture.tape_range().expect("a fitted picture has a window");
    list.add(Kind::Range, &Case::default().position(low).position(high));
    let rows = picture.grid().rows;
    for row in [rows / 2, rows - 1, rows] {
        let lines = picture.row(row).map_or([0; 4], |(step, lines)| [1, step, lines.start.into(), lines.end.into()]);
        list.add(Kind::RowLines, &Case::default().word(row).words(&lines));
    }
    Some(picture)
}

/// Opens a picture, draws rows of these tapes and then of random ones, and clicks on it all the while.
fn draw(list: &mut List, rng: &mut Rng, mut picture: Picture, tapes: &[Tape]) {
    let opened = Case::default().byte_list(picture.index()).byte_list(picture.store());
    list.add(Kind::Open, &opened);
    clicks(list, rng, &picture);
    for row in 0..picture.grid().rows.min(ROWS) {
        let tape = tapes.get(row as usize).cloned().unwrap_or_else(|| around(rng, &picture));
        let swept = (picture.grid().sweeps && tapes.is_empty() && rng.one_in(2)).then(|| swept(rng, &picture));
        picture.draw(&tape.original(), swept);
        let tallies = if picture.store().is_empty() { picture.size().0 } else { 0 };
        let case = tape.case().pair(swept).byte_list(picture.index()).byte_list(picture.store()).word(tallies);
        list.add(Kind::Row, &case);
        clicks(list, rng, &picture);
    }
}

/// A joined tape whose head is in the window, on one of its ends, beside it or anywhere.
fn around(rng: &mut Rng, picture: &Picture) -> Tape {
    let (low, high) = picture.tape_range().expect("a fitted picture has a window");
    let inside = low + rng.below(high.abs_diff(low) + 1) as i64;
    let far = any_position(rng);
    let head = rng.pick(&[inside, inside, inside, low, high, low - 1, high + 1, far]).clamp(-L, L);
    any_tape(rng, picture.size().2 as u32, head).joined()
}

fn swept(rng: &mut Rng, picture: &Picture) -> Pair {
    let (low, high) = picture.tape_range().expect("a fitted picture has a window");
    let mut place = || {
        let inside = low + rng.below(high.abs_diff(low) + 1) as i64;
        let far = any_position(rng);
        rng.pick(&[inside, inside, low, high, low - 1, high + 1, far, -L, L]).clamp(-L, L)
    };
    let (a, b) = (place(), place());
    (a.min(b), a.max(b))
}

/// Clicks on every pixel of the smallest pictures and around them, and on some of the others, most of them drawn.
fn clicks(list: &mut List, rng: &mut Rng, picture: &Picture) {
    let (width, height, _) = picture.size();
    let drawn = picture.rows_done() * picture.grid().row_px;
    if width * height <= FEW_PIXELS && rng.one_in(6) {
        for (x, y) in (0..=width).flat_map(|x| (0..=height).map(move |y| (x, y))) {
            click(list, picture, x, y);
        }
    }
    for _ in 0..CLICKS {
        let across = rng.below(width.into()) as u32;
        let inside = rng.below(drawn.max(1).into()) as u32;
        let x = rng.pick(&[0, width - 1, width, u32::MAX, across, across, across, across, across, across]);
        let y =
            rng.pick(&[0, drawn, height - 1, height, u32::MAX, inside, inside, inside, inside, inside, inside, inside]);
        click(list, picture, x, y);
    }
}

fn click(list: &mut List, picture: &Picture, x: u32, y: u32) {
    let (found, cells) = picture.locate(x, y).map_or(([0; 4], (0, 0)), |located| {
        let symbol = located.symbol.map_or(0, u64::from);
        ([1, located.step, located.symbol.is_some().into(), symbol], (located.from, located.to))
    });
    let case = Case::default().word(picture.store().len() as u64).word(x).word(y).words(&found);
    list.add(Kind::Locate, &case.position(cells.0).position(cells.1));
}
