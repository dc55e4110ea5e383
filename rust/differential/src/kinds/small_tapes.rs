//! Every tape of two symbols with at most two runs a side, of one or two cells each: every position and every window
//! on it and two cells beyond.

use random::Rng;

use crate::calls::{Get, Window};
use crate::count::Count;
use crate::tape::{Side, Tape};

const REACH: i64 = 6;

pub fn run(count: &mut Count, _: &mut Rng) {
    let sides = sides();
    for left in &sides {
        for right in &sides {
            for cur in [0, 1] {
                read_all(count, &Tape { symbols: 2, head: 0, cur, left: left.clone(), right: right.clone() });
            }
        }
    }
}

fn read_all(count: &mut Count, tape: &Tape) {
    for position in -REACH..=REACH {
        count.take(&Get { tape: tape.clone(), position });
    }
    for from in -REACH..=REACH {
        for length in 0..=(REACH + 1 - from) as usize {
            count.take(&Window { tape: tape.clone(), from, length });
        }
    }
}

fn sides() -> Vec<Side> {
    let runs = [(0, 1), (0, 2), (1, 1), (1, 2)];
    let mut sides = vec![Side::default()];
    for far in runs {
        sides.push(Side::new(&[far]));
        sides.extend(runs.map(|near| Side::new(&[far, near])));
    }
    sides
}
