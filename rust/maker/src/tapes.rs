//! Tapes, their symbols and their windows.

use random::Rng;

use crate::list::{Case, Kind, List};

/// L of the rules: positions are within plus and minus this.
pub const L: i64 = 1 << 62;

const RANDOM: u32 = 260;

/// The longest run. One of 2^63 cells, which may reach from one end of the domain to the other, is where the original's
/// windows part from the rules (docs/DIFFERENCES.md).
const LONGEST: u64 = i64::MAX as u64;

/// A sound tape. Runs are symbol and length, nearest the head last.
#[derive(Clone)]
pub struct Tape {
    pub head: i64,
    pub cur: u8,
    pub left: Vec<(u8, u64)>,
    pub right: Vec<(u8, u64)>,
}

impl Tape {
    /// The tape as a row takes it: joined on both sides.
    pub fn joined(self) -> Self {
        Self { left: joined(&self.left), right: joined(&self.right), ..self }
    }

    pub fn original(&self) -> reference::Tape {
        reference::Tape::new(self.head, self.cur, self.left.iter().copied(), self.right.iter().copied())
    }

    /// A case that begins with this tape.
    pub fn case(&self) -> Case {
        let symbols = |side: &[(u8, u64)]| side.iter().map(|run| run.0).collect::<Vec<u8>>();
        Case::default()
            .position(self.head)
            .word(self.cur)
            .byte_list(&symbols(&self.left))
            .byte_list(&symbols(&self.right))
            .word_list(self.left.iter().map(|run| run.1))
            .word_list(self.right.iter().map(|run| run.1))
    }

    /// Positions at and beside every border of its runs, of the domain and of the 64-bit numbers.
    fn landmarks(&self) -> Vec<i64> {
        let mut borders: Vec<i128> = [i64::MIN, -L, L, i64::MAX, self.head].map(i128::from).to_vec();
        let mut reached = i128::from(self.head);
        for &(_, length) in self.left.iter().rev() {
            reached -= i128::from(length);
            borders.push(reached);
        }
        reached = self.head.into();
        for &(_, length) in self.right.iter().rev() {
            reached += i128::from(length);
            borders.push(reached);
        }
        let beside = borders.into_iter().flat_map(|border| [border - 1, border, border + 1]);
        let mut positions: Vec<i64> = beside.filter_map(|position| i64::try_from(position).ok()).collect();
        positions.sort_unstable();
        positions.dedup();
        positions
    }
}

pub fn add(list: &mut List, rng: &mut Rng) {
    for (symbols, tape) in bounds() {
        for position in tape.landmarks() {
            get(list, symbols, &tape, position);
            window(list, symbols, &tape, position, 3);
        }
    }
    for _ in 0..RANDOM {
        let any = rng.within(1, 64);
        let symbols = rng.pick(&[1, 2, 2, 3, 64, any]) as u32;
        let head = any_position(rng);
        let tape = any_tape(rng, symbols, head);
        let landmarks = tape.landmarks();
        for _ in 0..5 {
            get(list, symbols, &tape, rng.pick(&landmarks));
        }
        for length in [0, 1, rng.within(2, 9), rng.within(10, 60)] {
            let back = rng.below(length + 1) as i64;
            window(list, symbols, &tape, rng.pick(&landmarks).saturating_sub(back), length as usize);
        }
    }
}

fn get(list: &mut List, symbols: u32, tape: &Tape, position: i64) {
    let symbol = tape.original().get(position);
    list.add(Kind::Get, &tape.case().word(symbols).position(position).word(symbol));
}

fn window(list: &mut List, symbols: u32, tape: &Tape, from: i64, length: usize) {
    let window = tape.original().window(from, length);
    list.add(Kind::Window, &tape.case().word(symbols).position(from).byte_list(&window));
}

/// Tapes at the bounds of what is taken: no runs, runs of one cell, runs that reach an end of the domain, a head on one,
/// the highest symbol, and runs of one symbol side by side.
fn bounds() -> Vec<(u32, Tape)> {
    let tape = |head: i64, cur: u8, left: &[(u8, u64)], right: &[(u8, u64)]| Tape {
        head,
        cur,
        left: left.to_vec(),
        right: right.to_vec(),
    };
    let half = L as u64;
    vec![
        (1, tape(0, 0, &[], &[])),
        (2, tape(0, 1, &[], &[])),
        (2, tape(1, 0, &[(1, 1)], &[])),
        (64, tape(-3, 63, &[(63, 2), (1, 1)], &[(63, 1), (63, 1), (0, 2)])),
        (3, tape(0, 2, &[(1, half)], &[(2, half)])),
        (3, tape(0, 0, &[(2, 1), (1, half - 1)], &[(1, half - 2), (2, 2)])),
        (2, tape(L, 1, &[(1, LONGEST)], &[])),
        (2, tape(-L, 1, &[], &[(1, LONGEST)])),
        (2, tape(L, 1, &[], &[])),
        (2, tape(-L, 1, &[], &[])),
        (5, tape(L - 1, 4, &[(1, 3), (0, 9)], &[(3, 1)])),
        (5, tape(1 - L, 4, &[(3, 1)], &[(1, 3), (0, 9)])),
    ]
}

/// A side with neighbours of equal symbol as one run, and no blank run at its outer end.
fn joined(side: &[(u8, u64)]) -> Vec<(u8, u64)> {
    let mut runs: Vec<(u8, u64)> = Vec::new();
    for &(symbol, length) in side {
        match runs.last_mut() {
            Some(beyond) if beyond.0 == symbol => beyond.1 += length,
            None if symbol == 0 => {}
            _ => runs.push((symbol, length)),
        }
    }
    runs
}

/// A position of the domain.
pub fn any_position(rng: &mut Rng) -> i64 {
    let near = rng.within(0, 400) as i64 - 200;
    let sized = rng.of_any_size(L as u64) as i64;
    rng.pick(&[0, near, near, near, sized, -sized, L, -L, L - 7, 7 - L])
}

/// A tape that no check refuses.
pub fn any_tape(rng: &mut Rng, symbols: u32, head: i64) -> Tape {
    let (left, right) = (head.abs_diff(-L), head.abs_diff(L));
    Tape { head, cur: any_symbol(rng, symbols), left: side(rng, symbols, left), right: side(rng, symbols, right) }
}

fn side(rng: &mut Rng, symbols: u32, room: u64) -> Vec<(u8, u64)> {
    let most = rng.pick(&[0, 1, 2, 3, 5, 12]);
    let longest = rng.pick(&[1, 3, 9, 60, LONGEST]);
    let mut room = room.min(LONGEST);
    let mut runs = Vec::new();
    for _ in 0..most {
        if room == 0 {
            break;
        }
        let length = if rng.one_in(25) { room } else { rng.of_any_size(room.min(longest)) };
        runs.push((any_symbol(rng, symbols), length));
        room -= length;
    }
    runs.reverse();
    runs
}

fn any_symbol(rng: &mut Rng, symbols: u32) -> u8 {
    if rng.one_in(4) { 0 } else { rng.below(symbols.into()) as u8 }
}
