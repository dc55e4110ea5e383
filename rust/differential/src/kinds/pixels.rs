//! Locations, heads and swept pairs: in bins of few and of many cells and of prime counts, in cells of every size, and
//! in columns that are not sound.

use random::Rng;

use crate::calls::{Head, Locate, MOST_CELLS, Swept};
use crate::columns::{Columns, HIGHEST, LOWEST, MOST_PIXELS, ZERO};
use crate::count::Count;

const WIDTHS: [u64; 17] = [1, 2, 3, 4, 5, 7, 8, 13, 31, 64, 97, 127, 1000, 1021, 4093, 4095, 4096];
const RANDOM_WINDOWS: u32 = 1_500;
const ASKED: u64 = 40;

pub fn run(count: &mut Count, rng: &mut Rng) {
    for width in WIDTHS {
        for cells in cells_over(width) {
            bins(count, rng, width, cells);
        }
    }
    for _ in 0..RANDOM_WINDOWS {
        let width = rng.of_any_size(MOST_PIXELS);
        let cells = width + rng.of_any_size(MOST_CELLS - width);
        bins(count, rng, width, cells);
    }
    for width in (1..=40).chain([99, 1021]) {
        for px in 1..=width.min(41) {
            cells(count, rng, width, px);
        }
    }
    unsound(count, rng);
}

/// Counts of cells at and around the multiples of a width, primes, and the most that there may be.
pub fn cells_over(width: u64) -> Vec<u64> {
    let near = [1, 2, 3, 5, 10].map(|times| times * width).into_iter().flat_map(|cells| [cells - 1, cells, cells + 1]);
    let far = [4099, 5000, 65_537, 1_000_003, (1 << 31) - 1, MOST_CELLS - width, MOST_CELLS - 1, MOST_CELLS];
    let mut cells: Vec<u64> = near.chain(far).filter(|&cells| cells > width).collect();
    cells.sort_unstable();
    cells.dedup();
    cells
}

/// Where a window of so many cells may begin: at the domain's ends, around position 0, anywhere.
pub fn first(rng: &mut Rng, cells: u64) -> u64 {
    let last = HIGHEST - (cells - 1);
    let any = rng.within(LOWEST, last);
    let near = rng.below(cells.min(1000));
    rng.pick(&[LOWEST, last, ZERO, ZERO - near, any, any])
}

fn bins(count: &mut Count, rng: &mut Rng, width: u64, cells: u64) {
    let first = first(rng, cells);
    let columns = Columns::Bins { first, cells, width };
    for _ in 0..ASKED {
        let v = rng.within(0, width + 1);
        count.take(&Locate { width, columns, x: v });
        let cell = |rng: &mut Rng| beside_a_border(rng, width, cells);
        let (a, b) = (cell(rng), cell(rng));
        count.take(&Head { width, columns, position: (first + a).saturating_sub(1) });
        let far = rng.pick(&[0, LOWEST, first - 1, first + cells - 1, first + cells, HIGHEST, u64::MAX]);
        count.take(&Head { width, columns, position: far });
        for (low, high) in [(first + a, first + b), (far, first + a), (first + b, far), (first + a, first + a)] {
            count.take(&Swept { width, columns, low, high });
        }
    }
    for x in [0, width - 1, width, MOST_PIXELS, u64::from(u32::MAX), u64::MAX] {
        count.take(&Locate { width, columns, x });
    }
}

/// A cell at or beside the border of a bin, or any cell and one beyond.
pub fn beside_a_border(rng: &mut Rng, width: u64, cells: u64) -> u64 {
    let border = u128::from(rng.within(0, width)) * u128::from(cells) / u128::from(width.max(1));
    let beside = (border as u64 + rng.below(3)).saturating_sub(1);
    let any = rng.below(cells);
    rng.pick(&[beside, beside, beside, any])
}

fn cells(count: &mut Count, rng: &mut Rng, width: u64, px: u64) {
    let room = width / px;
    let any = rng.within(LOWEST, HIGHEST);
    for first in [LOWEST - 2047, LOWEST, ZERO, any, HIGHEST - room, HIGHEST] {
        let columns = Columns::cells(width, px, first);
        for x in 0..=width + 1 {
            count.take(&Locate { width, columns, x });
        }
        let places: Vec<u64> = [0, 1, room / 2, room, room + 1].iter().map(|k| first + k - 1).collect();
        for &low in &places {
            count.take(&Head { width, columns, position: low });
            for &high in &places {
                count.take(&Swept { width, columns, low, high });
            }
        }
    }
}

/// Columns with one number beside what the rules take.
fn unsound(count: &mut Count, rng: &mut Rng) {
    for width in [0, 1, 2, 7, 4095, 4096, 4097, 1 << 32, u64::MAX] {
        for _ in 0..2_000 {
            let columns = if rng.one_in(2) { damaged_bins(rng, width) } else { damaged_cells(rng, width) };
            let (first, _) = columns.window();
            count.take(&Locate { width, columns, x: rng.pick(&[0, 1, width, u64::MAX]) });
            count.take(&Head { width, columns, position: first });
            count.take(&Swept { width, columns, low: first, high: first });
        }
    }
}

fn damaged_bins(rng: &mut Rng, picture: u64) -> Columns {
    let width = rng.pick(&[picture, picture, picture, picture.wrapping_sub(1), picture.wrapping_add(1), 0]);
    let over = picture.wrapping_add(1);
    let cells = rng.pick(&[0, 1, picture, over, over, 5000, MOST_CELLS, MOST_CELLS + 1, u64::MAX]);
    let last = HIGHEST.wrapping_sub(cells).wrapping_add(1);
    let firsts = [LOWEST, LOWEST - 1, last, last.wrapping_add(1), HIGHEST, HIGHEST + 1, ZERO, ZERO, 0, u64::MAX];
    Columns::Bins { first: rng.pick(&firsts), cells, width }
}

fn damaged_cells(rng: &mut Rng, picture: u64) -> Columns {
    let px = rng.pick(&[0, 1, 1, 2, 3, picture, picture.wrapping_add(1), u64::MAX]);
    let count = picture.checked_div(px).unwrap_or(picture);
    let x0 = picture.wrapping_sub(count.wrapping_mul(px)) / 2;
    let near = |rng: &mut Rng, number: u64| rng.pick(&[number, number, number.wrapping_add(1), number.wrapping_sub(1)]);
    let firsts = [LOWEST - 2047, LOWEST - 2048, LOWEST, ZERO, HIGHEST, HIGHEST + 1, 0, u64::MAX];
    Columns::Cells { first: rng.pick(&firsts), count: near(rng, count), px, x0: near(rng, x0) }
}
