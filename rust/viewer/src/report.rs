//! What is said of a drawn picture: its size, what it shows, and how the run ended, in words and in JSON.

use serde_json::{Value, json};

use crate::answers::Answers;
use crate::arguments::Drawing;
use crate::drawing::{Drawn, LeftOut, MAX_RUNS};
use crate::output::Output;
use crate::stepper::Stop;
use crate::texts;
use crate::words::{counted, grouped, harmless};

/// One line, and another where written cells are left out.
pub fn words(output: &Output, drawn: &Drawn) -> String {
    let (picture, steps) = (&drawn.picture, counted(drawn.steps, "step"));
    let end = match drawn.stop {
        Stop::Halted => format!("halted after {steps}"),
        Stop::Edge => format!("stopped after {steps}, 2^62 cells from its start, as far as pictures go"),
        Stop::Crowded => format!("stopped after {steps}, with more than {} runs on its tape", grouped(MAX_RUNS)),
        Stop::Reached | Stop::Paused => format!("shown up to step {}", grouped(drawn.steps)),
    };
    let (rows, window) = (counted(picture.rows_done(), "row"), picture.tape_range());
    let [first, last] = [*window.start(), *window.end()].map(grouped);
    let (width, height) = (picture.width(), picture.height());
    format!(
        "{}: {width} by {height} pixels, {rows}, cells {first} to {last}; {end}.\n{}",
        harmless(output.name("Standard output").chars()),
        left_out(drawn.left_out)
    )
}

fn left_out(LeftOut { rows, most }: LeftOut) -> String {
    if rows == 0 {
        return String::new();
    }
    let cells = counted(most, "written cell");
    format!("It leaves out up to {cells} of a row, in {}.\n", counted(rows, "row"))
}

/// The picture, the answers and the notes.
pub fn json(drawing: &Drawing, drawn: &Drawn, answers: &Answers) -> Value {
    let picture = &drawn.picture;
    let window = picture.tape_range();
    let [located, upright, uprights] = answers.json();
    json!({
        "machine": drawing.machine_text,
        "input": drawing.order.input.iter().map(u8::to_string).collect::<String>(),
        "mode": texts::mode(drawing.order.view),
        "width": picture.width(),
        "height": picture.height(),
        "cell": picture.cell_px(),
        "row_height": picture.row_height(),
        "rows": picture.rows_done(),
        "window": [window.start(), window.end()],
        "left_out": { "rows": drawn.left_out.rows, "most": drawn.left_out.most },
        "first_step": picture.row(0).map(|row| row.0),
        "last_step": drawn.steps,
        "end": end(drawn.stop),
        "file": drawing.output.as_ref().map(|output| output.name("-")),
        "locate": located,
        "upright": upright,
        "uprights": uprights,
        "notes": drawn.notes,
    })
}

fn end(stop: Stop) -> &'static str {
    match stop {
        Stop::Halted => "halted",
        Stop::Edge => "edge",
        Stop::Crowded => "runs",
        Stop::Reached | Stop::Paused => "steps",
    }
}
