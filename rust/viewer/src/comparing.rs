//! Whether two pictures are equal, by the library, and in what they differ first.

use std::ops::RangeInclusive;

use serde_json::{Value, json};
use spacetime::Picture;

use crate::answers::{self, Mark, Point};
use crate::words::{counted, grouped};

/// What is other in two pictures, the first one's before the second's.
#[derive(Clone, Debug)]
pub enum Difference {
    Width([u32; 2]),
    Height([u32; 2]),
    Window([RangeInclusive<i64>; 2]),
    Rows([u32; 2]),
    Step { row: u32, steps: [u64; 2] },
    Pixel { point: Point, marks: [Mark; 2] },
    Symbol { row: u32, cell: i64, symbols: [u8; 2] },
}

/// The first that is other: size, window, number of rows, then the first row whose step is, the first pixel, the first symbol. Nothing in
/// equal pictures.
pub fn difference(a: &Picture, b: &Picture) -> Option<Difference> {
    (a != b).then(|| {
        let found = frame(a, b).or_else(|| step(a, b)).or_else(|| pixel(a, b)).or_else(|| symbol(a, b));
        found.expect("pictures that are not equal differ in one of these")
    })
}

fn frame(a: &Picture, b: &Picture) -> Option<Difference> {
    let both = |what: fn(&Picture) -> u32| Some([a, b].map(what)).filter(|[a, b]| a != b);
    let windows = [a, b].map(Picture::tape_range);
    both(Picture::width)
        .map(Difference::Width)
        .or_else(|| both(Picture::height).map(Difference::Height))
        .or_else(|| (windows[0] != windows[1]).then_some(Difference::Window(windows)))
        .or_else(|| both(Picture::rows_done).map(Difference::Rows))
}

fn step(a: &Picture, b: &Picture) -> Option<Difference> {
    let steps = |row| [a, b].map(|picture| picture.row(row).expect("a row that is drawn").0);
    let mut rows = (0..a.rows_done()).map(|row| (row, steps(row)));
    rows.find(|(_, [a, b])| a != b).map(|(row, steps)| Difference::Step { row, steps })
}

fn pixel(a: &Picture, b: &Picture) -> Option<Difference> {
    let at = place(a.index_buffer(), b.index_buffer())?;
    let width = usize::try_from(a.width()).expect("at most 4096");
    let point = (number(at % width), number(at / width));
    Some(Difference::Pixel { point, marks: [a, b].map(|picture| answers::mark(picture, point)) })
}

fn symbol(a: &Picture, b: &Picture) -> Option<Difference> {
    let at = place(a.store(), b.store())?;
    let window = a.tape_range();
    let count = usize::try_from(window.end() - window.start() + 1).expect("at most 4096 cells");
    let cell = window.start() + i64::from(number(at % count));
    Some(Difference::Symbol { row: number(at / count), cell, symbols: [a.store()[at], b.store()[at]] })
}

/// The first place at which they differ.
fn place(a: &[u8], b: &[u8]) -> Option<usize> {
    a.iter().zip(b).position(|(a, b)| a != b)
}

fn number(place: usize) -> u32 {
    u32::try_from(place).expect("at most 4096 × 4096")
}

impl Difference {
    pub fn words(&self) -> String {
        match self {
            Self::Width([a, b]) => format!("{} wide and {}", counted(a, "pixel"), grouped(b)),
            Self::Height([a, b]) => format!("{} high and {}", counted(a, "pixel"), grouped(b)),
            Self::Window(windows) => {
                let [a, b] = windows.each_ref().map(|ends| [*ends.start(), *ends.end()].map(grouped).join(" to "));
                format!("cells {a} and {b}")
            }
            Self::Rows([a, b]) => format!("{} and {}", counted(a, "row"), grouped(b)),
            Self::Step { row, steps: [a, b] } => format!("row {row} at step {} and {}", grouped(a), grouped(b)),
            Self::Pixel { point: (x, y), marks: [a, b] } => format!("pixel {x},{y}: {} and {}", a.words(), b.words()),
            Self::Symbol { row, cell, symbols: [a, b] } => {
                format!("they look equal, but in row {row} cell {} has symbol {a} and {b}", grouped(cell))
            }
        }
    }

    pub fn json(&self) -> Value {
        match self {
            Self::Width(values) => json!({ "in": "width", "values": values }),
            Self::Height(values) => json!({ "in": "height", "values": values }),
            Self::Window(windows) => {
                json!({ "in": "window", "values": windows.each_ref().map(|ends| [ends.start(), ends.end()]) })
            }
            Self::Rows(values) => json!({ "in": "rows", "values": values }),
            Self::Step { row, steps } => json!({ "in": "step", "row": row, "values": steps }),
            Self::Pixel { point: (x, y), marks } => {
                json!({ "in": "pixel", "x": x, "y": y, "values": marks.map(Mark::name) })
            }
            Self::Symbol { row, cell, symbols } => {
                json!({ "in": "symbol", "row": row, "cell": cell, "values": symbols })
            }
        }
    }
}
