//! The command's pictures beside those of the Rust original, which steps the same machines by its own stepper.

mod common;

use common::{CHAMPION, Scratch, png, spacetime};
use reference::{Located, Palette, Picture, SpaceTimeMode, SpaceTimeRequest, Transition};
use serde_json::{Value, json};

/// The champion of two states and three symbols, which halts after 38 steps.
const THREE_SYMBOLS: &str = "1RB2LB1RZ_2LA2RB1LB";
/// Two states and four symbols, 3,932,964 steps.
const FOUR_SYMBOLS: &str = "1RB2LA1RA1RA_1LB1LA3RB1RZ";
const WALK: &str = "1RA---";
const HALTED: &str = "---1RA";

struct Order {
    machine: &'static str,
    size: (u32, u32),
    mode: SpaceTimeMode,
    input: &'static str,
    dark: bool,
}

impl Order {
    fn overview(machine: &'static str, size: (u32, u32), max_steps: u64) -> Self {
        Self { machine, size, mode: SpaceTimeMode::Overview { max_steps }, input: "", dark: false }
    }

    fn exact(machine: &'static str, size: (u32, u32), first_step: u64, cell_px: Option<u32>) -> Self {
        Self { machine, size, mode: SpaceTimeMode::Exact { first_step, cell_px }, input: "", dark: false }
    }

    fn arguments(&self) -> Vec<String> {
        let (width, height) = self.size;
        let mut words = vec![format!("--width={width}"), format!("--height={height}")];
        match self.mode {
            SpaceTimeMode::Overview { max_steps } => words.push(format!("--steps={max_steps}")),
            SpaceTimeMode::Exact { first_step, cell_px } => {
                words.extend(["--exact".to_string(), format!("--first-step={first_step}")]);
                words.extend(cell_px.map(|px| format!("--cell={px}")));
            }
        }
        words.extend([format!("--input={}", self.input)]);
        words.extend(self.dark.then(|| "--dark".to_string()));
        words.extend(["--".to_string(), self.machine.to_string()]);
        words
    }

    fn original(&self) -> Picture {
        let (symbols, table) = table(self.machine);
        let (width, height) = self.size;
        let input: Vec<u8> = self.input.bytes().map(|digit| digit - b'0').collect();
        Picture::of_machine(symbols, &table, &input, SpaceTimeRequest { width, height, mode: self.mode }).unwrap()
    }

    /// Index bytes and colours are the original's, byte for byte.
    fn compare(&self) {
        let scratch = Scratch::new();
        let file = scratch.file("picture.png");
        let output = spacetime(["--output", &file].map(String::from).into_iter().chain(self.arguments()));
        assert!(output.status.success(), "{:?}: {output:?}", self.arguments());
        let (ours, original) = (png(&file), self.original());
        let palette = if self.dark { Palette::DARK } else { Palette::LIGHT };
        assert_eq!((ours.width, ours.height), self.size);
        assert!(ours.index == original.index(), "{:?}: the index bytes differ", self.arguments());
        assert!(ours.rgba() == original.rgba(&palette), "{:?}: the colours differ", self.arguments());
    }

    /// Clicks are the original's.
    fn compare_click(&self, x: u32, y: u32) {
        let words = ["--json".to_string(), format!("--locate={x},{y}")].into_iter().chain(self.arguments());
        let said: Value = serde_json::from_slice(&spacetime(words).stdout).unwrap();
        let said = &said["locate"][0];
        let Some(Located { step, from, to, symbol }) = self.original().locate(x, y) else {
            assert_ne!(said["place"], "row", "{:?}", self.arguments());
            return;
        };
        let told = json!([said["step"], said["from"], said["to"], said["symbol"]]);
        assert_eq!(told, json!([step, from, to, symbol]), "{:?}", self.arguments());
    }
}

/// The alphabet's count and the entries of a machine in the standard format.
fn table(machine: &str) -> (u32, Vec<Option<Transition>>) {
    let entry = |entry: &[u8]| {
        let next = u16::from(entry[2].wrapping_sub(b'A'));
        (entry != b"---").then(|| (entry[0] - b'0', entry[1] == b'R', next))
    };
    let states: Vec<&str> = machine.split('_').collect();
    let table = states.iter().flat_map(|state| state.as_bytes().chunks(3)).map(entry).collect();
    (u32::try_from(states[0].len() / 3).unwrap(), table)
}

#[test]
fn overviews_are_the_original_s() {
    for machine in [CHAMPION, THREE_SYMBOLS, FOUR_SYMBOLS] {
        for size in [(640, 480), (37, 23), (300, 1), (1, 300)] {
            Order::overview(machine, size, 100_000_000).compare();
        }
        Order::overview(machine, (200, 150), 1_000).compare();
        Order { dark: true, ..Order::overview(machine, (200, 150), 12_345) }.compare();
    }
}

#[test]
fn exact_pictures_are_the_original_s() {
    for machine in [CHAMPION, THREE_SYMBOLS, FOUR_SYMBOLS] {
        for (first_step, cell_px) in [(0, None), (0, Some(3)), (20, None), (37, Some(4096))] {
            Order::exact(machine, (240, 180), first_step, cell_px).compare();
        }
        Order { dark: true, ..Order::exact(machine, (33, 400), 7, Some(2)) }.compare();
    }
    for cell_px in [None, Some(5)] {
        for (machine, halt) in [(CHAMPION, 47_176_870), (FOUR_SYMBOLS, 3_932_964)] {
            for first_step in [halt / 2, halt - 64, halt] {
                Order::exact(machine, (240, 180), first_step, cell_px).compare();
            }
        }
    }
}

#[test]
fn walks_and_halts_are_the_original_s() {
    for max_steps in [0, 1, 100, 1_000_003, 1 << 49] {
        Order::overview(WALK, (64, 48), max_steps).compare();
        Order::overview(HALTED, (64, 48), max_steps).compare();
    }
    Order::exact(WALK, (64, 48), 1 << 40, None).compare();
    Order::exact(WALK, (64, 48), 1 << 60, Some(4)).compare();
    Order::exact(HALTED, (64, 48), 0, None).compare();
}

#[test]
fn start_words_are_the_original_s() {
    for input in ["1", "0001", "101100111000", "1000"] {
        for machine in [CHAMPION, THREE_SYMBOLS, FOUR_SYMBOLS, HALTED] {
            Order { input, ..Order::overview(machine, (200, 150), 3_000) }.compare();
            Order { input, ..Order::overview(machine, (9, 30), 3_000) }.compare();
            Order { input, ..Order::exact(machine, (240, 180), 0, None) }.compare();
            Order { input, ..Order::exact(machine, (24, 18), 0, Some(5)) }.compare();
        }
    }
}

#[test]
fn clicks_are_the_original_s() {
    let orders = [
        Order::overview(CHAMPION, (640, 480), 100_000_000),
        Order::overview(THREE_SYMBOLS, (100, 50), 100),
        Order::exact(FOUR_SYMBOLS, (100, 50), 1_000, Some(3)),
    ];
    for order in orders {
        for (x, y) in [(0, 0), (1, 1), (50, 25), (99, 49), (100, 0), (0, 480), (639, 479), (u32::MAX, u32::MAX)] {
            order.compare_click(x, y);
        }
    }
}
