//! Tapes to join: every side of at most four runs of three symbols, and random ones as importers write them, with many short
//! runs of one symbol, blank runs at the outer end, and sides that are all blank or fill the domain.

use random::Rng;

use crate::calls::Join;
use crate::count::Count;
use crate::tape::{L, Side, Tape};
use crate::tapes::{room_left, room_right};

const HEADS: [i64; 5] = [-L, 1 - L, 0, L - 1, L];
const IMPORTED: u32 = 20_000;

pub fn run(count: &mut Count, rng: &mut Rng) {
    let sides = small_sides();
    for (at, left) in sides.iter().enumerate() {
        let right = &sides[(at * 7 + 3) % sides.len()];
        count.take(&Join { tape: Tape { symbols: 3, head: 0, cur: 1, left: left.clone(), right: right.clone() } });
    }
    for head in HEADS {
        for left in full_sides(room_left(head)) {
            for right in full_sides(room_right(head)) {
                count.take(&Join { tape: Tape { symbols: 2, head, cur: 1, left: left.clone(), right } });
            }
        }
    }
    for _ in 0..IMPORTED {
        let symbols = rng.pick(&[1, 2, 2, 3, 64]);
        let (left, right) = (imported(rng, symbols), imported(rng, symbols));
        let head = rng.pick(&[0, -7, L / 2]);
        count.take(&Join { tape: Tape { symbols: symbols as u32, head, cur: 0, left, right } });
    }
}

/// Every side of at most four runs, of three symbols and of one or two cells.
fn small_sides() -> Vec<Side> {
    let one_more = |sides: &Vec<Vec<(u8, u64)>>| -> Vec<Vec<(u8, u64)>> {
        let runs = [(0, 1), (0, 2), (1, 1), (1, 2), (2, 1), (2, 2)];
        sides.iter().flat_map(|side| runs.map(|run| [&side[..], &[run]].concat())).collect()
    };
    let mut longest = vec![Vec::new()];
    let mut sides = longest.clone();
    for _ in 0..4 {
        longest = one_more(&longest);
        sides.extend(longest.clone());
    }
    sides.iter().map(|runs| Side::new(runs)).collect()
}

/// Sides whose runs fill the room, so that what they join to does too, and ones that are blank to the domain's end.
fn full_sides(room: u64) -> Vec<Side> {
    let (half, rest) = (room / 2, room - room / 2);
    let lists: [&[(u8, u64)]; 8] = [
        &[],
        &[(1, room)],
        &[(1, half), (1, rest)],
        &[(0, half), (0, rest)],
        &[(0, half), (1, rest)],
        &[(1, half), (0, rest)],
        &[(1, half / 2), (1, half - half / 2), (0, rest)],
        &[(0, half / 2), (1, half - half / 2), (1, rest)],
    ];
    lists.into_iter().filter(|runs| runs.iter().all(|run| run.1 > 0)).map(Side::new).collect()
}

/// Short runs, neighbours of one symbol more often than not, and at times some or all of them blank from the outer end on.
fn imported(rng: &mut Rng, symbols: u64) -> Side {
    let most = if rng.one_in(100) { 3_000 } else { rng.pick(&[0, 1, 2, 8, 50]) };
    let runs = rng.within(0, most);
    let blank = rng.pick(&[0, 0, 1, 3, runs]);
    let again = rng.pick(&[2, 4, 16]);
    let mut symbol = 0;
    let run = |at: u64, rng: &mut Rng| {
        if at >= blank && (at == blank || rng.one_in(again)) {
            symbol = rng.below(symbols) as u8;
        }
        (symbol, rng.within(1, 3))
    };
    let runs: Vec<(u8, u64)> = (0..runs).scan(run, |run, at| Some(run(at, rng))).collect();
    Side::new(&runs)
}
