//! Tapes to try, and the positions where they are worth reading.

use random::Rng;

use crate::model::{Stretch, joined, stretches};
use crate::tape::{L, Side, Tape};

/// A random tape that no check refuses.
pub fn sound(rng: &mut Rng) -> Tape {
    let any = rng.within(1, 64);
    let symbols = rng.pick(&[1, 2, 2, 3, 64, any, any, any]);
    let head = head(rng);
    sound_at(rng, symbols, head)
}

/// A random tape with its head on a position of the domain that no check refuses, of 1 to 64 symbols.
pub fn sound_at(rng: &mut Rng, symbols: u64, head: i64) -> Tape {
    let (left, right) = (room_left(head), room_right(head));
    Tape {
        symbols: symbols as u32,
        head,
        cur: symbol(rng, symbols),
        left: side(rng, symbols, left),
        right: side(rng, symbols, right),
    }
}

/// The same for a row, whose sides have to be joined: most are, and some are as they come.
pub fn for_row(rng: &mut Rng, symbols: u64, head: i64) -> Tape {
    let tape = sound_at(rng, symbols, head);
    if rng.one_in(8) { tape } else { Tape { left: joined(&tape.left), right: joined(&tape.right), ..tape } }
}

/// The tape with these stretches written, which are in order, apart from each other and in the domain.
pub fn written(symbols: u32, head: i64, stretches: &[Stretch]) -> Tape {
    let mut tape = Tape { symbols, head, cur: 0, left: Side::default(), right: Side::default() };
    let head = i128::from(head);
    let mut past = head;
    for stretch in stretches.iter().rev().filter(|stretch| stretch.low < head) {
        let high = stretch.high.min(head - 1);
        outwards(&mut tape.left, (past - 1 - high, high - stretch.low + 1), stretch.symbol);
        past = stretch.low;
    }
    let mut last = head;
    for stretch in stretches.iter().filter(|stretch| stretch.high > head) {
        let low = stretch.low.max(head + 1);
        outwards(&mut tape.right, (low - last - 1, stretch.high - low + 1), stretch.symbol);
        last = stretch.high;
    }
    let under = stretches.iter().find(|stretch| (stretch.low..=stretch.high).contains(&head));
    tape.cur = under.map_or(0, |stretch| stretch.symbol);
    for side in [&mut tape.left, &mut tape.right] {
        side.symbols.reverse();
        side.lengths.reverse();
    }
    tape
}

/// Adds a gap and a run to a side that still has the run nearest the head first.
fn outwards(side: &mut Side, (gap, length): (i128, i128), symbol: u8) {
    for (symbol, length) in [(0, gap), (symbol, length)].into_iter().filter(|&(_, length)| length > 0) {
        side.symbols.push(symbol);
        side.lengths.push(length as u64);
    }
}

/// The cells between the head and the domain's lower end.
pub fn room_left(head: i64) -> u64 {
    head.abs_diff(-L)
}

/// The cells between the head and the domain's upper end.
pub fn room_right(head: i64) -> u64 {
    head.abs_diff(L)
}

/// Positions on both sides of every border of a sound tape, of the domain and of the 64-bit numbers.
pub fn landmarks(tape: &Tape) -> Vec<i64> {
    let borders = stretches(tape).into_iter().flat_map(|stretch| [stretch.low, stretch.high]);
    let ends = [i64::MIN, -L, 0, L, i64::MAX].map(i128::from);
    let around = borders.chain(ends).flat_map(|border| [border - 1, border, border + 1]);
    let mut positions: Vec<i64> = around.filter_map(|position| i64::try_from(position).ok()).collect();
    positions.sort_unstable();
    positions.dedup();
    positions
}

fn head(rng: &mut Rng) -> i64 {
    let any = rng.within(0, 1 << 63).wrapping_sub(1 << 62) as i64;
    let near = rng.below(40) as i64;
    rng.pick(&[0, near - 20, near - 20, any, any, L - near, near - L])
}

/// Few runs or many, short ones or ones of any size, and at times one that takes all the room that is left.
fn side(rng: &mut Rng, symbols: u64, room: u64) -> Side {
    let most = rng.pick(&[0, 1, 1, 2, 3, 8, 30]);
    let most = if rng.one_in(200) { 2_000 } else { most };
    let longest = rng.pick(&[1, 2, 9, 1 << 20, u64::MAX]);
    let mut room = room;
    let mut runs: Vec<(u8, u64)> = Vec::new();
    for _ in 0..rng.within(0, most) {
        if room == 0 {
            break;
        }
        let length = if rng.one_in(25) { room } else { rng.of_any_size(room.min(longest)) };
        let alike = runs.last().filter(|_| rng.one_in(5)).map(|run| run.0);
        runs.push((alike.unwrap_or_else(|| symbol(rng, symbols)), length));
        room -= length;
    }
    runs.reverse();
    Side::new(&runs)
}

fn symbol(rng: &mut Rng, symbols: u64) -> u8 {
    if rng.one_in(4) { 0 } else { rng.below(symbols) as u8 }
}
