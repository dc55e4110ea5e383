//! Steps a machine by chain steps on a tape of runs.
//!
//! A transition that stays in its state reads the same symbol again for as long as a run of it lies ahead, so it is done at
//! once for the whole run: the cells become what is written, and the head ends on the first cell past them. A chain step is cut
//! where it would pass the wanted step or the edge, so a run stops at any step exactly.

use spacetime::{MAX_POSITION, Pair};

use crate::machine::{Machine, Transition};
use crate::tape::{Tape, widened};

/// Why the stepper stopped.
#[derive(Copy, Clone, Debug, PartialEq, Eq)]
pub enum Stop {
    /// No transition applies, be it at the wanted step or before.
    Halted,
    /// The wanted step is reached.
    Reached,
    /// One more step would take the head beyond the edge.
    Edge,
    /// The tape has more runs than there is memory for.
    Crowded,
    /// As many chain steps are done as were allowed.
    Paused,
}

/// A machine on its tape.
#[derive(Clone, Debug)]
pub struct Stepper<'a> {
    machine: &'a Machine,
    state: u8,
    tape: Tape,
    steps: u64,
    extent: Pair,
}

impl<'a> Stepper<'a> {
    /// The machine before its first step, on a tape with this word.
    pub fn new(machine: &'a Machine, input: &[u8]) -> Self {
        let tape = Tape::with_input(input);
        let extent = widened(tape.written(), (0, 0));
        Self { machine, state: 0, tape, steps: 0, extent }
    }

    pub fn tape(&self) -> &Tape {
        &self.tape
    }

    /// The steps done so far.
    pub fn steps(&self) -> u64 {
        self.steps
    }

    /// The least and the greatest position of the head so far, and of what was written at first.
    pub fn extent(&self) -> Pair {
        self.extent
    }

    /// Steps until `target` steps are done in all, by at most `chains` chain steps. Widens `swept` by each position that the
    /// head comes to.
    pub fn advance(&mut self, target: u64, chains: u32, swept: &mut Option<Pair>) -> Stop {
        for _ in 0..chains {
            let Some(transition) = self.machine.transition(self.state, self.tape.cur) else {
                return Stop::Halted;
            };
            if self.steps >= target {
                return Stop::Reached;
            }
            let room = self.room(transition.right);
            if room == 0 {
                return Stop::Edge;
            }
            let repeats = self.chain(transition).min(target - self.steps).min(room);
            self.apply(transition, repeats, swept);
        }
        Stop::Paused
    }

    /// How far the head may still move.
    fn room(&self, right: bool) -> u64 {
        if right { self.tape.head.abs_diff(MAX_POSITION) } else { self.tape.head.abs_diff(-MAX_POSITION) }
    }

    /// How often the transition applies in a row, where nothing cuts it.
    fn chain(&self, transition: Transition) -> u64 {
        if transition.next != self.state {
            return 1;
        }
        let ahead = if transition.right { &self.tape.right } else { &self.tape.left };
        match ahead.nearest() {
            Some((symbol, cells)) if symbol == self.tape.cur => cells + 1,
            None if self.tape.cur == 0 => u64::MAX,
            _ => 1,
        }
    }

    fn apply(&mut self, transition: Transition, repeats: u64, swept: &mut Option<Pair>) {
        let tape = &mut self.tape;
        let distance = repeats.cast_signed();
        let (behind, ahead, first, last) = if transition.right {
            (&mut tape.left, &mut tape.right, tape.head + 1, tape.head + distance)
        } else {
            (&mut tape.right, &mut tape.left, tape.head - 1, tape.head - distance)
        };
        behind.push(transition.write, repeats);
        ahead.take(repeats - 1);
        tape.cur = ahead.pop();
        tape.head = last;
        self.state = transition.next;
        self.steps += repeats;
        self.extent = (self.extent.0.min(last), self.extent.1.max(last));
        *swept = Some(widened(*swept, (first.min(last), first.max(last))));
    }
}

// By its path, since the benchmark takes in this file from another folder.
#[cfg(test)]
#[path = "stepper/tests.rs"]
mod tests;
