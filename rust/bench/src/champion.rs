//! The overview of the five-state champion: its row calls alone, and with the stepping as a viewer does it.

use std::hint::black_box;

use reference::{Overview, Pair, Picture, SpaceTimeMode, SpaceTimeRequest, Transition};
use spacetime::{LentSide, LentTape};

use crate::ffi;
use crate::machine::Machine;
use crate::measure::{FEW, Measured, SAMPLES, in_turns};
use crate::picture::{self, DONE};
use crate::sizing::{Size, WIDTH};
use crate::stepper::{Stepper, Stop};
use crate::viewing::{Order, View, draw};

const CHAMPION: &str = "1RB1LC_1RC1RB_1RD0LE_1LA1LD_1RZ0LA";
const STATES: u8 = 5;
const STEPS: u64 = 47_176_870;

pub fn run() {
    let machine: Machine = CHAMPION.parse().expect("a machine");
    let extent = extent(&machine);
    println!("## The champion's overview\n");
    println!("| pixels | what | ours | Rust | ratio |");
    println!("|---|---|---|---|---|");
    println!("| 1 × 2 | stepping and drawing | {}", whole(&machine, (1, 2), SAMPLES).cells());
    for size @ (width, height) in [(640, 480), (4096, 4096)] {
        println!("| {width} × {height} | the rows alone | {}", rows(&machine, size, extent).cells());
        println!("| {width} × {height} | stepping and drawing | {}", whole(&machine, size, FEW).cells());
    }
    println!();
}

fn extent(machine: &Machine) -> Pair {
    let mut stepper = Stepper::new(machine, &[]);
    assert_eq!(stepper.advance(u64::MAX, u32::MAX, &mut None), Stop::Halted);
    assert_eq!(stepper.steps(), STEPS);
    stepper.extent()
}

/// What a row is drawn from: the tape for each side, and what the head visited since the row before.
struct Row {
    ours: ffi::Tape,
    original: reference::Tape,
    swept: Option<Pair>,
}

/// Every row call, from tapes that stand ready.
fn rows(machine: &Machine, (width, height): (u32, u32), extent: Pair) -> Measured<2> {
    let order = Overview { total: STEPS, extent };
    let mut original = Picture::overview(width, height, 2, &order).expect("a size that is taken");
    let mut ours = picture::beside(&original);
    let recorded = recorded(machine, &original);
    let mut lent: Vec<reference::Tape> = recorded.iter().map(|row| row.original.clone()).collect();
    let measured = in_turns(
        FEW,
        [
            &mut || {
                ours.record[DONE] = 0;
                for row in &recorded {
                    black_box(ffi::row(black_box(&mut ours), &row.ours, row.swept));
                }
            },
            &mut || {
                for ((number, row), tape) in (0..).zip(&recorded).zip(&mut lent) {
                    black_box(&mut original).draw_row(number, tape, row.swept);
                }
            },
        ],
    );
    assert!(ours.index == original.index(), "the sides draw alike");
    measured
}

/// The tapes of the rows' steps.
fn recorded(machine: &Machine, original: &Picture) -> Vec<Row> {
    let mut stepper = Stepper::new(machine, &[]);
    let steps = (0..original.grid().rows).map(|row| original.row(row).expect("a row of the grid").0);
    steps.map(|step| record(&mut stepper, step)).collect()
}

fn record(stepper: &mut Stepper, step: u64) -> Row {
    let mut swept = None;
    stepper.advance(step, u32::MAX, &mut swept);
    assert_eq!(stepper.steps(), step, "the champion goes on until its last step");
    let ours = lent(stepper.tape().lend());
    Row { original: ours.original(), ours, swept }
}

fn lent(tape: LentTape) -> ffi::Tape {
    let side = |runs: LentSide| (runs.symbols.to_vec(), runs.lengths.to_vec());
    ffi::Tape { symbols: 2, head: tape.head, cur: tape.cur, left: side(tape.left), right: side(tape.right) }
}

/// Both passes of the stepping, the fit, the memory and the rows: the viewer's own code, beside all of the original.
fn whole(machine: &Machine, (width, height): (u32, u32), rounds: usize) -> Measured<2> {
    let size = Size { width: Some(width), height: Some(height), widest: WIDTH };
    let order = Order { size, input: Vec::new(), view: View::Overview { steps: u64::MAX, cells: None } };
    let request = SpaceTimeRequest { width, height, mode: SpaceTimeMode::Overview { max_steps: u64::MAX } };
    let table = table(machine);
    let (mut ours, mut original) = (None, None);
    let measured = in_turns(
        rounds,
        [&mut || ours = Some(draw(black_box(machine), black_box(&order), &mut |_, _| {})), &mut || {
            original = black_box(Picture::of_machine(2, black_box(&table), &[], request))
        }],
    );
    let (ours, original) = (ours.expect("a sample").expect("a picture"), original.expect("a size that is taken"));
    assert!(ours.picture.index_buffer() == original.index(), "the sides draw alike");
    measured
}

/// The table as the original takes it.
fn table(machine: &Machine) -> Vec<Option<Transition>> {
    let entries = (0..STATES).flat_map(|state| [0, 1].map(|symbol| machine.transition(state, symbol)));
    entries.map(|entry| entry.map(|entry| (entry.write, entry.right, entry.next.into()))).collect()
}
