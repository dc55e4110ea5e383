//! Tapes that reach the ends of the domain: heads at and near them, and sides that fill all the room there is, by one
//! run or by several.

use random::Rng;

use crate::calls::{Get, Join, Window};
use crate::count::Count;
use crate::tape::{L, Side, Tape};
use crate::tapes::{landmarks, room_left, room_right};

const HEADS: [i64; 9] = [-L, 1 - L, -L / 2, -1, 0, 1, L / 2, L - 1, L];

pub fn run(count: &mut Count, _: &mut Rng) {
    for head in HEADS {
        for left in sides(room_left(head)) {
            for right in sides(room_right(head)) {
                let tape = Tape { symbols: 3, head, cur: 2, left: left.clone(), right };
                read_around_landmarks(count, &tape);
            }
        }
    }
}

fn read_around_landmarks(count: &mut Count, tape: &Tape) {
    count.take(&Join { tape: tape.clone() });
    for position in landmarks(tape) {
        count.take(&Get { tape: tape.clone(), position });
        for length in [0, 1, 2, 7] {
            count.take(&Window { tape: tape.clone(), from: position, length });
            let from = position.saturating_sub(3);
            count.take(&Window { tape: tape.clone(), from, length });
        }
    }
}

/// Sides whose runs fill the room, or leave one cell of it.
fn sides(room: u64) -> Vec<Side> {
    let filled = [
        vec![],
        vec![(1, room)],
        vec![(1, room.saturating_sub(1))],
        vec![(1, 1), (0, room.saturating_sub(1))],
        vec![(1, room / 2), (2, room - room / 2)],
        vec![(2, room.saturating_sub(3)), (0, 2), (1, 1)],
    ];
    let whole = |runs: &Vec<(u8, u64)>| runs.iter().all(|run| run.1 > 0) && total(runs) <= u128::from(room);
    let mut sides: Vec<Side> = filled.iter().filter(|runs| whole(runs)).map(|runs| Side::new(runs)).collect();
    sides.dedup();
    sides
}

fn total(runs: &[(u8, u64)]) -> u128 {
    runs.iter().map(|run| u128::from(run.1)).sum()
}
