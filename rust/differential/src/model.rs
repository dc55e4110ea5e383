//! The rules on tapes (RULES, Tape), plainly: positions are i128, so nothing saturates and nothing wraps.

use crate::tape::{L, Side, Tape};

/// The cells `low` to `high`, all of them `symbol`.
#[derive(Copy, Clone, Debug, PartialEq, Eq)]
pub struct Stretch {
    pub low: i128,
    pub high: i128,
    pub symbol: u8,
}

/// The number of the first check that the tape fails, of 2, 11 and 12; 0 where it passes them.
pub fn refusal(tape: &Tape) -> u32 {
    first_failed(tape, false)
}

/// The same for a row's tape, which has to be joined: of 2, 11, 19 and 12.
pub fn row_refusal(tape: &Tape) -> u32 {
    first_failed(tape, true)
}

fn first_failed(tape: &Tape, joined: bool) -> u32 {
    let sides = [&tape.left, &tape.right];
    if !(1..=64).contains(&tape.symbols) {
        return 2;
    }
    let foreign = |symbol: u8| u32::from(symbol) >= tape.symbols;
    if foreign(tape.cur) || sides.iter().any(|side| broken(side, foreign)) {
        return 11;
    }
    if joined && !sides.iter().all(|side| is_joined(side)) {
        return 19;
    }
    let head = i128::from(tape.head);
    let reached = [head, head - tape.left.total(), head + tape.right.total()];
    if reached.iter().any(|position| position.abs() > i128::from(L)) {
        return 12;
    }
    0
}

fn broken(side: &Side, foreign: impl Fn(u8) -> bool) -> bool {
    side.symbols.len() != side.lengths.len() || side.lengths.contains(&0) || side.symbols.iter().any(|&s| foreign(s))
}

/// Whether no two neighbouring runs have one symbol and the outermost run is not blank.
fn is_joined(side: &Side) -> bool {
    side.symbols.first() != Some(&0) && side.symbols.windows(2).all(|pair| pair[0] != pair[1])
}

/// The runs and the head of a sound tape, from left to right.
pub fn stretches(tape: &Tape) -> Vec<Stretch> {
    let cells = tape.left.runs().chain([(tape.cur, 1)]).chain(tape.right.runs().rev());
    let mut next = i128::from(tape.head) - tape.left.total();
    cells
        .map(|(symbol, length)| {
            let low = next;
            next += i128::from(length);
            Stretch { low, high: next - 1, symbol }
        })
        .collect()
}

/// What `get` answers.
pub fn get(tape: &Tape, position: i64) -> Result<u8, u32> {
    match refusal(tape) {
        0 => Ok(symbol_at(&stretches(tape), i128::from(position))),
        number => Err(number),
    }
}

/// What `window` writes.
pub fn window(tape: &Tape, from: i64, length: usize) -> Result<Vec<u8>, u32> {
    match refusal(tape) {
        0 => Ok(read(tape, from, length)),
        number => Err(number),
    }
}

/// The cells of a sound tape from `from` on. One past 2^63 - 1 is past every run too, so it is blank.
pub fn read(tape: &Tape, from: i64, length: usize) -> Vec<u8> {
    let all = stretches(tape);
    (0..length).map(|place| symbol_at(&all, i128::from(from) + place as i128)).collect()
}

fn symbol_at(all: &[Stretch], position: i128) -> u8 {
    let holds = |stretch: &&Stretch| stretch.low <= position && position <= stretch.high;
    let near = all.partition_point(|stretch| stretch.high < position);
    all.get(near).filter(holds).map_or(0, |stretch| stretch.symbol)
}

/// The runs that a sound side joins to, by its cells alone: a run ends where a cell and the next one outwards have two symbols,
/// and past all runs the cells are blank.
pub fn joined(side: &Side) -> Side {
    let mut past = 0;
    let outwards: Vec<(u8, i128)> = side
        .runs()
        .rev()
        .map(|(symbol, length)| {
            past += i128::from(length);
            (symbol, past)
        })
        .collect();
    let symbol = |cell: i128| {
        let near = outwards.partition_point(|&(_, past)| past <= cell);
        outwards.get(near).map_or(0, |&(symbol, _)| symbol)
    };
    let ends = outwards.iter().map(|&(_, past)| past).filter(|&past| symbol(past - 1) != symbol(past));
    let mut low = 0;
    let mut runs: Vec<(u8, u64)> = ends
        .map(|past| {
            let length = past - low;
            low = past;
            (symbol(past - 1), length as u64)
        })
        .collect();
    runs.reverse();
    Side::new(&runs)
}
