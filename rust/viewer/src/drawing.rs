//! Draws a machine's run by the library: a first run for what the fit asks, a second one for the rows.

use spacetime::{Exact, MAX_CELLS, Overview, Pair, Picture, Refusal};

use crate::machine::Machine;
use crate::sizing::{self, Size};
use crate::stepper::{Stepper, Stop};
use crate::words::{counted, grouped};

/// Chain steps between two looks at the progress: some milliseconds' worth.
const SLICE: u32 = 1 << 20;

/// The runs of a tape beyond which a run stops. A run takes nine bytes, and there are two tapes at most, so memory stays under
/// 200 MB with the largest picture.
pub const MAX_RUNS: usize = 1 << 22;

/// What is drawn, and how large.
#[derive(Clone, Debug)]
pub struct Order {
    pub size: Size,
    /// The word on the tape at first, a symbol a byte.
    pub input: Vec<u8>,
    pub view: View,
}

/// Which steps are drawn.
#[derive(Copy, Clone, Debug)]
pub enum View {
    /// The whole run, up to a step, over the cells that it visits or those given.
    Overview { steps: u64, cells: Option<Pair> },
    /// Each step from `first_step` on, up to a step where one is given.
    Exact { first_step: u64, cell_px: Option<u32>, steps: Option<u64> },
}

/// A drawn picture, and how the run that it shows ended.
#[derive(Debug)]
pub struct Drawn {
    pub picture: Picture,
    /// The last step shown.
    pub steps: u64,
    pub stop: Stop,
    pub left_out: LeftOut,
    /// What is shown otherwise than one might think, a sentence each.
    pub notes: Vec<String>,
}

/// What the rows do not show: written cells left and right of the window.
#[derive(Copy, Clone, Debug, Default)]
pub struct LeftOut {
    /// The rows that leave out any.
    pub rows: u32,
    /// The most that a row leaves out.
    pub most: u64,
}

impl LeftOut {
    /// Counts the row drawn last.
    fn add(&mut self, picture: &Picture) {
        let cells = picture.written_left() + picture.written_right();
        self.rows += u32::from(cells > 0);
        self.most = self.most.max(cells);
    }
}

/// Is told how many steps of how many are done.
pub type Progress<'a> = &'a mut dyn FnMut(u64, u64);

pub fn draw(machine: &Machine, order: &Order, progress: Progress) -> Result<Drawn, String> {
    let mut drawn = match order.view {
        View::Overview { steps, cells } => overview(machine, order, steps, cells, progress),
        View::Exact { first_step, cell_px, steps } => {
            let last_step = steps.unwrap_or(u64::MAX);
            exact(machine, order, (first_step, last_step), cell_px, progress)
        }
    }?;
    if let Some(halt) = machine.doubtful_halt() {
        drawn.notes.push(format!("State {halt} has no row, and is taken as the halt."));
    }
    Ok(drawn)
}

fn overview(
    machine: &Machine,
    order: &Order,
    steps: u64,
    cells: Option<Pair>,
    progress: Progress,
) -> Result<Drawn, String> {
    let mut first_run = Stepper::new(machine, &order.input);
    let stop = run_to(&mut first_run, steps, progress);
    let (total, extent) = (first_run.steps(), cells.unwrap_or(first_run.extent()));
    drop(first_run);
    let fit = Overview { total, extent };
    let picture = sizing::overview(order.size, machine.symbols(), &fit).map_err(|refusal| match refusal {
        Refusal::Cells => too_wide(extent),
        other => unfitted(other),
    })?;
    let (picture, left_out) = draw_rows(Stepper::new(machine, &order.input), picture, true, progress)?;
    Ok(Drawn { picture, steps: total, stop, left_out, notes: Vec::new() })
}

fn exact(
    machine: &Machine,
    order: &Order,
    (first_step, last_step): (u64, u64),
    cell_px: Option<u32>,
    progress: Progress,
) -> Result<Drawn, String> {
    let mut stepper = Stepper::new(machine, &order.input);
    let stop = run_to(&mut stepper, first_step, progress);
    if stepper.steps() < first_step {
        return Err(unreached(stop, stepper.steps()));
    }
    let first_row = stepper.clone();
    let (heads, stop) = heads(&mut stepper, sizing::row_limit(order.size, cell_px), last_step);
    let written = first_row.tape().written();
    let fit = Exact { first_step, cell_px, heads: &heads, written, halted: stop == Stop::Halted };
    let picture = sizing::exact(order.size, machine.symbols(), &fit).map_err(|refusal| match refusal {
        Refusal::Cells => {
            "The tape covers more than 2^50 cells: give a --cell size or a smaller --first-step.".to_string()
        }
        other => unfitted(other),
    })?;
    let notes = cell_notes(&picture, &fit);
    let (picture, left_out) = draw_rows(first_row, picture, false, progress)?;
    // There may be fewer rows than heads, and then the end isn't among them.
    let steps = last_row_step(&picture);
    let stop = if steps == stepper.steps() { stop } else { Stop::Reached };
    Ok(Drawn { picture, steps, stop, left_out, notes })
}

/// The head's position in each row that has room, and why there are no more. A halt after the last row's step is seen too.
fn heads(stepper: &mut Stepper, limit: usize, last_step: u64) -> (Vec<i64>, Stop) {
    let mut heads = vec![stepper.tape().head];
    let mut stop = Stop::Reached;
    while heads.len() < limit && stepper.steps() < last_step && stop == Stop::Reached {
        let before = stepper.steps();
        stop = stepper.advance(before + 1, SLICE, &mut None);
        if stepper.steps() > before {
            heads.push(stepper.tape().head);
        }
    }
    (heads, stop)
}

/// What becomes of a given cell size: one that is more than a side, and one at which the window leaves out cells.
fn cell_notes(picture: &Picture, fit: &Exact) -> Vec<String> {
    let (Some(given), Some(taken)) = (fit.cell_px, picture.cell_px()) else {
        return Vec::new();
    };
    let mut notes = Vec::new();
    if given != taken {
        notes.push(format!("--cell {given} is more than a side of the picture, and {taken} is taken."));
    }
    let used = sizing::used(fit, picture.rows());
    let window = picture.tape_range();
    if !window.contains(&used.0) || !window.contains(&used.1) {
        let [low, high, first, last] = [used.0, used.1, *window.start(), *window.end()].map(grouped);
        notes.push(format!("The tape is cut off: cells {low} to {high} are in use, and {first} to {last} are shown."));
    }
    notes
}

/// Draws every row of the picture, from the tape at its step and, if it `sweeps`, what the head visited since the row before.
fn draw_rows(
    mut stepper: Stepper,
    mut picture: Picture,
    sweeps: bool,
    progress: Progress,
) -> Result<(Picture, LeftOut), String> {
    let last = last_row_step(&picture);
    let mut left_out = LeftOut::default();
    for row in 0..picture.rows() {
        let step = row_step(&picture, row);
        let mut swept = None;
        while stepper.steps() < step && stepper.advance(step, SLICE, &mut swept) == Stop::Paused {
            progress(stepper.steps(), last);
        }
        picture.draw_lent_row(stepper.tape().lend(), swept.filter(|_| sweeps)).map_err(unfitted)?;
        left_out.add(&picture);
        progress(step, last);
    }
    Ok((picture, left_out))
}

fn last_row_step(picture: &Picture) -> u64 {
    row_step(picture, picture.rows() - 1)
}

fn row_step(picture: &Picture, row: u32) -> u64 {
    picture.row(row).expect("a row below rows, of which there is one at least").0
}

/// Steps until `target` steps are done in all, or the machine cannot go on, or its tape has too many runs.
fn run_to(stepper: &mut Stepper, target: u64, progress: Progress) -> Stop {
    loop {
        let stop = stepper.advance(target, SLICE, &mut None);
        if stop != Stop::Paused {
            return stop;
        }
        if stepper.tape().runs() > MAX_RUNS {
            return Stop::Crowded;
        }
        progress(stepper.steps(), target);
    }
}

fn unreached(stop: Stop, steps: u64) -> String {
    let steps = counted(steps, "step");
    match stop {
        Stop::Edge => {
            format!("The head is 2^62 cells from its start after {steps}: give a smaller --first-step.")
        }
        Stop::Crowded => {
            let runs = grouped(MAX_RUNS);
            format!("The tape has more than {runs} runs after {steps}: give a --first-step of at most that.")
        }
        _ => format!("The machine halts after {steps}: give a --first-step of at most that."),
    }
}

/// What is said of an extent that no overview takes.
fn too_wide((low, high): Pair) -> String {
    let cells = grouped(low.abs_diff(high) + 1);
    format!("The run covers {cells} cells, and a picture at most {}: give fewer --steps, or --cells.", power(MAX_CELLS))
}

/// A power of two as one.
fn power(number: u64) -> String {
    format!("2^{}", number.ilog2())
}

fn unfitted(refusal: Refusal) -> String {
    format!("The library refuses the picture: {refusal}.")
}
