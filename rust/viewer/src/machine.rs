//! A machine in the field's standard format, such as `1RB1LC_1RC1RB_1RD0LE_1LA1LD_1RZ0LA`: a row for each state, and in it for
//! each symbol what to write, where to move and which state is next. `---` is undefined. One letter without a row may be named
//! as the halt.

use std::str::FromStr;

use crate::words::quoted;

const MAX_STATES: usize = 26;
const MAX_SYMBOLS: usize = 10;

/// What one step does.
#[derive(Copy, Clone, Debug, PartialEq, Eq)]
pub struct Transition {
    pub write: u8,
    pub right: bool,
    pub next: u8,
}

/// A transition for each state and symbol, where there is one. It starts in state 0.
#[derive(Clone, Debug, PartialEq, Eq)]
pub struct Machine {
    symbols: usize,
    table: Vec<Option<Transition>>,
    halt: Option<u8>,
}

impl Machine {
    /// The alphabet's count, blank included.
    pub fn symbols(&self) -> u32 {
        u32::try_from(self.symbols).expect("at most 10")
    }

    /// Nothing where the machine halts.
    pub fn transition(&self, state: u8, symbol: u8) -> Option<Transition> {
        self.table.get(usize::from(state) * self.symbols + usize::from(symbol)).copied().flatten()
    }

    /// The letter that is taken as the halt only because it is the one beyond the last row. It may stand for a row that was lost.
    pub fn doubtful_halt(&self) -> Option<char> {
        self.halt.map(letter).filter(|halt| *halt != 'Z' && (*halt != 'H' || self.states() == usize::from(b'H' - b'A')))
    }

    fn states(&self) -> usize {
        self.table.len() / self.symbols
    }

    /// Finds the letter of the halt. Any other state that an entry names has a row.
    fn find_halt(&mut self) -> Result<(), String> {
        let states = self.states();
        for (at, entry) in self.table.iter().enumerate() {
            let Some(entry) = entry.filter(|entry| usize::from(entry.next) >= states) else {
                continue;
            };
            let may_halt = matches!(letter(entry.next), 'Z' | 'H') || usize::from(entry.next) == states;
            if !may_halt || self.halt.is_some_and(|halt| halt != entry.next) {
                return Err(rowless(at / self.symbols, at % self.symbols, entry));
            }
            self.halt = Some(entry.next);
        }
        Ok(())
    }
}

impl FromStr for Machine {
    type Err = String;

    /// White space around the machine is taken.
    fn from_str(text: &str) -> Result<Self, String> {
        let text = text.trim();
        let states: Vec<&str> = text.split('_').collect();
        let length = states[0].len();
        let symbols = length / 3;
        if !text.is_ascii() || length == 0 || !length.is_multiple_of(3) {
            return Err(format!(
                "{} is no machine: give three characters for each symbol and _ between states, as in 1RB1LB_1LA1RZ.",
                quoted(text)
            ));
        }
        if symbols > MAX_SYMBOLS || states.len() > MAX_STATES {
            return Err(format!(
                "The machine is too large: give at most {MAX_STATES} states and {MAX_SYMBOLS} symbols."
            ));
        }
        if let Some(state) = states.iter().find(|state| state.len() != length) {
            return Err(format!(
                "State {} has another length than the first: give each {symbols} entries.",
                quoted(state)
            ));
        }
        let entries = states.iter().flat_map(|state| state.as_bytes().chunks_exact(3));
        let table = entries.map(|entry| transition(entry, symbols)).collect::<Result<_, _>>()?;
        let mut machine = Self { symbols, table, halt: None };
        machine.find_halt()?;
        Ok(machine)
    }
}

fn letter(state: u8) -> char {
    char::from(b'A' + state)
}

/// What is said of an entry that names a state without a row.
fn rowless(state: usize, symbol: usize, entry: Transition) -> String {
    let (state, next) = (letter(u8::try_from(state).expect("at most 26")), letter(entry.next));
    let (write, side) = (entry.write, if entry.right { 'R' } else { 'L' });
    format!(
        "Entry `{write}{side}{next}` (state {state}, symbol {symbol}) names state {next}, which has no row: give each state \
         one, with _ between, and one halt, Z or H."
    )
}

fn transition(entry: &[u8], symbols: usize) -> Result<Option<Transition>, String> {
    if entry == b"---" {
        return Ok(None);
    }
    let digit = entry[0].wrapping_sub(b'0');
    if usize::from(digit) < symbols && matches!(entry[1], b'L' | b'R') && entry[2].is_ascii_uppercase() {
        return Ok(Some(Transition { write: digit, right: entry[1] == b'R', next: entry[2] - b'A' }));
    }
    Err(format!(
        "Entry {} is none: give a symbol from 0 to {}, L or R, and a state from A to Z, or --- for undefined.",
        quoted(&String::from_utf8_lossy(entry)),
        symbols - 1
    ))
}

#[cfg(test)]
mod tests {
    use super::{Machine, Transition};

    fn refused(text: &str) -> String {
        text.parse::<Machine>().unwrap_err()
    }

    #[test]
    fn entries_are_read_by_state_and_symbol() {
        let machine: Machine = "1RB---2LA_2LA0RZ1RB".parse().unwrap();
        assert_eq!(machine.symbols(), 3);
        assert_eq!(machine.transition(0, 0), Some(Transition { write: 1, right: true, next: 1 }));
        assert_eq!(machine.transition(0, 1), None);
        assert_eq!(machine.transition(1, 0), Some(Transition { write: 2, right: false, next: 0 }));
        assert_eq!(machine.transition(25, 0), None, "a state without a row halts");
        assert_eq!(" \t1RB---2LA_2LA0RZ1RB\n".parse(), Ok(machine), "white space around it is taken");
    }

    #[test]
    fn every_state_that_is_named_has_a_row() {
        let cases = [
            ("1RB1LC1RC1RB1RD0LE1LA1LD1RZ0LA", "Entry `1LC` (state A, symbol 1) names state C"),
            ("1RB1LC_1RC1RB_1RD0LE", "(state C, symbol 1) names state E"),
            ("1RB1LC", "(state A, symbol 1) names state C"),
            ("1RB1LC_1RZ1RB", "(state B, symbol 0) names state Z"),
            ("1RH1LZ", "(state A, symbol 1) names state Z"),
            ("0RA1LY", "(state A, symbol 1) names state Y"),
        ];
        for (text, words) in cases {
            assert!(refused(text).contains(words), "{text}: {}", refused(text));
        }
    }

    #[test]
    fn one_letter_without_a_row_is_the_halt() {
        let doubtful = |text: &str| text.parse::<Machine>().unwrap().doubtful_halt();
        for text in ["1RB1LB_1LA1RZ", "1RB1LB_1LA1RH", "1RB1LB_1LA---"] {
            assert_eq!(doubtful(text), None, "{text}");
        }
        assert_eq!(doubtful("1RB1LB_1LA1RC"), Some('C'));
        assert_eq!(doubtful("0RB_0RC_0RD_0RE_0RF_0RG_0RH"), Some('H'), "the one beyond the last row too");
    }

    #[test]
    fn the_largest_machine_is_read() {
        let state = "9RZ".repeat(10);
        let text = vec![state; 26].join("_");
        let machine: Machine = text.parse().unwrap();
        assert_eq!(machine.symbols(), 10);
        assert!(machine.transition(25, 9).is_some(), "Z is a state of its own here");
        assert!(refused(&format!("{text}_{}", "9RZ".repeat(10))).contains("at most 26 states"));
        assert!(refused(&"1RA".repeat(11)).contains("10 symbols"));
    }

    #[test]
    fn what_is_no_machine_is_refused() {
        for text in ["", " ", "_", "1R", "1RB_", "1RB1L", "1RB1LA_1RB", "1RB 1LA", "éé", "1RB1LA_éé"] {
            refused(text);
        }
        for entry in ["2RA", "1RA2LA", "1XA1LA", "1R-1LA", "1Ra1LA", "--A1LA", "1R[1LA", "/RA1LA"] {
            assert!(refused(entry).contains("give a symbol from 0 to"), "{entry}");
        }
    }
}
