//! Times the proved library and the Rust original on the same inputs, in one run, and prints tables of medians and of
//! ratios (ours / Rust) in Markdown, in the order of docs/BENCHMARKS.md, which has a run of it. Writes docs/cost.svg.
//! Parts that are named, such as `rows`, are run alone.

mod bands;
mod champion;
mod colouring;
mod command;
mod drawing;
mod ffi;
mod fitting;
mod growth;
mod joining;
mod locating;
mod measure;
mod picture;
mod plot;
mod reading;
mod tallying;

// The viewer's own stepping and drawing.
#[path = "../../viewer/src/machine.rs"]
mod machine;
#[path = "../../viewer/src/sizing.rs"]
mod sizing;
#[allow(dead_code, reason = "only an overview is drawn")]
#[path = "../../viewer/src/stepper.rs"]
mod stepper;
#[path = "../../viewer/src/tape.rs"]
mod tape;
#[allow(dead_code, reason = "only the picture is looked at")]
#[path = "../../viewer/src/drawing.rs"]
mod viewing;
#[path = "../../viewer/src/words.rs"]
mod words;

use std::env;
use std::process::ExitCode;

/// The parts, in the page's order.
const PARTS: [(&str, fn()); 11] = [
    ("rows", drawing::run),
    ("growth", growth::run),
    ("bands", bands::run),
    ("fit", fitting::run),
    ("locate", locating::run),
    ("champion", champion::run),
    ("tallies", tallying::run),
    ("colours", colouring::run),
    ("reading", reading::run),
    ("joining", joining::run),
    ("command", command::run),
];

fn main() -> ExitCode {
    if cfg!(debug_assertions) {
        eprintln!("built with checks, which the times would count: cargo run --profile measured ..");
        return ExitCode::FAILURE;
    }
    let wanted: Vec<String> = env::args().skip(1).collect();
    if let Some(other) = wanted.iter().find(|name| PARTS.iter().all(|(part, _)| part != name)) {
        eprintln!("no part {other}: give some of {}, or nothing for all", PARTS.map(|(part, _)| part).join(", "));
        return ExitCode::FAILURE;
    }
    for (_, run) in PARTS.iter().filter(|(part, _)| wanted.is_empty() || wanted.iter().any(|name| name == part)) {
        run();
    }
    ExitCode::SUCCESS
}
