//! The stepper beside a naive one: a cell at a time, a step at a time.

use std::collections::BTreeMap;

use spacetime::{MAX_POSITION, Pair};

use super::{Stepper, Stop};
use crate::machine::Machine;
use crate::tape::{Tape, widened};

struct Naive<'a> {
    machine: &'a Machine,
    cells: BTreeMap<i64, u8>,
    state: u8,
    head: i64,
    extent: Pair,
}

impl<'a> Naive<'a> {
    fn new(machine: &'a Machine, input: &[u8]) -> Self {
        let mut naive =
            Self { machine, cells: (0..).zip(input.iter().copied()).collect(), state: 0, head: 0, extent: (0, 0) };
        naive.extent = widened(naive.written(), (0, 0));
        naive
    }

    /// False where it has halted.
    fn step(&mut self) -> bool {
        let read = self.get(self.head);
        let Some(transition) = self.machine.transition(self.state, read) else {
            return false;
        };
        self.cells.insert(self.head, transition.write);
        self.head += if transition.right { 1 } else { -1 };
        self.state = transition.next;
        self.extent = (self.extent.0.min(self.head), self.extent.1.max(self.head));
        true
    }

    fn get(&self, position: i64) -> u8 {
        self.cells.get(&position).copied().unwrap_or(0)
    }

    fn written(&self) -> Option<Pair> {
        let mut cells = self.cells.iter().filter(|(_, symbol)| **symbol != 0).map(|(position, _)| *position);
        let low = cells.next()?;
        Some((low, cells.next_back().unwrap_or(low)))
    }

    /// The cells of the other tape are these, and both heads stand alike.
    fn assert_like(&self, tape: &Tape, symbols: u32) {
        assert_eq!(tape.head, self.head);
        let (low, high) = (self.extent.0 - 2, self.extent.1 + 2);
        let length = usize::try_from(high - low + 1).unwrap();
        let cells: Vec<u8> = (low..=high).map(|position| self.get(position)).collect();
        assert_eq!(tape.lend().window(symbols, low, length), Ok(cells));
        assert_eq!(tape.written(), self.written());
    }
}

const MACHINES: [&str; 8] = [
    "1RB1LC_1RC1RB_1RD0LE_1LA1LD_1RZ0LA",
    "1RB1LB_1LA0LC_1RZ1LD_1RD0RA",
    "1RB2LA1RA_1LA2RB1RC_---1LB2RC",
    "1RB0LD_1LC0RA_1RA1LB_1LA1LE_1RF0LC_---0RE",
    "0RA",
    "1LA1RA",
    "---1RA",
    "1RB9LA3RB0LB4RA5LB6RA7LA8RB2RA_2LA1RB0LA9RB4LB3RA6LB5RB8LA7RB",
];

/// Both start on the same word, are stopped after each of these numbers of steps, and then compared.
fn compare(text: &str, input: &[u8], strides: impl Iterator<Item = u64>) {
    let machine: Machine = text.parse().unwrap();
    let (mut naive, mut stepper) = (Naive::new(&machine, input), Stepper::new(&machine, input));
    for stride in strides {
        let (mut visited, mut halted) = (None, false);
        for _ in 0..stride {
            halted = !naive.step();
            if halted {
                break;
            }
            visited = Some(widened(visited, (naive.head, naive.head)));
        }
        let mut swept = None;
        let stop = stepper.advance(stepper.steps() + stride, u32::MAX, &mut swept);
        assert_eq!((swept, stepper.extent()), (visited, naive.extent));
        naive.assert_like(stepper.tape(), machine.symbols());
        assert!(!halted || stop == Stop::Halted);
    }
}

#[test]
fn each_step_is_like_the_naive_one() {
    for machine in MACHINES {
        compare(machine, &[], [1; 400].into_iter());
    }
}

#[test]
fn chain_steps_are_cut_at_any_step() {
    for machine in MACHINES {
        for stride in [2, 3, 7, 50] {
            compare(machine, &[], [stride].into_iter().cycle().take(60));
        }
        compare(machine, &[], 1..80);
    }
}

#[test]
fn random_machines_step_like_the_naive_one() {
    let mut state = 7_u64;
    let mut random = |below: u64| {
        state = state.wrapping_mul(6_364_136_223_846_793_005).wrapping_add(1_442_695_040_888_963_407);
        (state >> 33) % below
    };
    for _ in 0..300 {
        let (states, symbols) = (1 + random(4), 1 + random(4));
        let mut entry = |_| match random(12) {
            0 => "---".to_string(),
            turn => {
                let next = char::from(b'A' + u8::try_from(random(states)).unwrap());
                format!("{}{}{next}", random(symbols), if turn % 2 == 0 { 'L' } else { 'R' })
            }
        };
        let rows: Vec<String> = (0..states).map(|_| (0..symbols).map(&mut entry).collect()).collect();
        let input: Vec<u8> = (0..random(9)).map(|_| u8::try_from(random(symbols)).unwrap()).collect();
        compare(&rows.join("_"), &input, [1, 2, 3, 5, 8, 13, 21, 34, 55].into_iter());
    }
}

#[test]
fn the_champion_halts_when_it_should() {
    let machine: Machine = MACHINES[0].parse().unwrap();
    let mut stepper = Stepper::new(&machine, &[]);
    assert_eq!(stepper.advance(u64::MAX, u32::MAX, &mut None), Stop::Halted);
    assert_eq!(stepper.steps(), 47_176_870);
    let tape = stepper.tape();
    let ones = tape.left.iter().chain(tape.right.iter()).filter(|run| run.0 == 1).map(|run| run.1);
    assert_eq!(ones.sum::<u64>() + u64::from(tape.cur), 4098);
}

#[test]
fn a_walk_stops_at_the_edge() {
    for (text, head) in [("1RA---", MAX_POSITION), ("1LA---", -MAX_POSITION)] {
        let machine: Machine = text.parse().unwrap();
        let mut stepper = Stepper::new(&machine, &[]);
        assert_eq!(stepper.advance(u64::MAX, u32::MAX, &mut None), Stop::Edge);
        assert_eq!((stepper.steps(), stepper.tape().head), (1 << 62, head));
        assert_eq!(stepper.advance(1 << 62, u32::MAX, &mut None), Stop::Reached);
    }
}

#[test]
fn work_is_bounded_by_chain_steps() {
    let machine: Machine = "1RB---_1LA---".parse().unwrap();
    let mut stepper = Stepper::new(&machine, &[]);
    assert_eq!(stepper.advance(u64::MAX, 1, &mut None), Stop::Paused);
    assert_eq!(stepper.steps(), 1);
}
