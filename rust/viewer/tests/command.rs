//! The command as a program: what it draws and says, and its preview.

mod common;

use std::process::{Command, Stdio};

use common::{PROGRAM, Scratch, assert_said, png, spacetime, text};

/// Runs the command in a folder of its own under a terminal of this many columns and lines; its status, and what it printed.
fn status_in_terminal(
    scratch: &Scratch,
    columns: u32,
    lines: u32,
    environment: &str,
    arguments: &str,
) -> (Option<i32>, String) {
    let command = format!("stty cols {columns} rows {lines}; TERM=xterm {environment} '{PROGRAM}' {arguments}");
    let script = Command::new("script")
        .args(["--quiet", "--return", "--command", &command, "/dev/null"])
        .env_remove("NO_COLOR")
        .current_dir(scratch.path())
        .stdin(Stdio::null())
        .output()
        .unwrap();
    (script.status.code(), text(&script.stdout).replace("\r\n", "\n"))
}

/// What it printed, where it did all.
fn in_terminal(scratch: &Scratch, columns: u32, lines: u32, environment: &str, arguments: &str) -> String {
    let (status, printed) = status_in_terminal(scratch, columns, lines, environment, arguments);
    assert_eq!(status, Some(0), "{printed:?}");
    printed
}

#[test]
fn nothing_else_draws_the_champion() {
    let scratch = Scratch::new();
    let said = "spacetime.png: 640 by 480 pixels, 480 rows, cells -12,243 to 45; halted after 47,176,870 steps.\n";
    assert_said(&scratch.run(&[]), 0, said);
    let picture = png(&scratch.file("spacetime.png"));
    assert_eq!((picture.width, picture.height), (640, 480));
    let shown = png(concat!(env!("CARGO_MANIFEST_DIR"), "/../../docs/champion.png"));
    assert!(picture.rgba() == shown.rgba(), "the README shows another picture");
}

#[test]
fn the_end_of_a_run_is_told() {
    let scratch = Scratch::new();
    let told = |arguments: &[&str]| text(&scratch.run(arguments).stdout).to_string();
    assert!(told(&["--steps", "1000"]).ends_with("shown up to step 1,000.\n"));
    assert!(told(&["1RB---_1LA---"]).ends_with("halted after 2 steps.\n"));
    assert!(told(&["--exact", "--width=640"]).ends_with("60 rows, cells -40 to 39; shown up to step 59.\n"));
    assert!(told(&["--exact", "--first-step=5", "--steps=9"]).contains(" 5 rows,"));
    let edge = told(&["0RA", "--exact", "--first-step", "4611686018427387890"]);
    assert!(edge.contains(" 15 rows,"), "{edge}");
    assert!(edge.ends_with("904 steps, 2^62 cells from its start, as far as pictures go.\n"), "{edge}");
}

#[test]
fn one_is_no_plural() {
    let scratch = Scratch::new();
    let one_row = "spacetime.png: 8 by 8 pixels, 1 row, cells 0 to 0; halted after 0 steps.\n";
    assert_said(&scratch.run(&["--", "---1RA"]), 0, one_row);
    let one_step = "spacetime.png: 16 by 16 pixels, 2 rows, cells 0 to 1; halted after 1 step.\n";
    assert_said(&scratch.run(&["1RZ---"]), 0, one_step);
}

#[test]
fn numbers_are_taken_as_they_are_said() {
    let scratch = Scratch::new();
    let said = |steps: &str| text(&scratch.run(&["--steps", steps]).stdout).to_string();
    assert!(said("1,048,576").ends_with("shown up to step 1,048,576.\n"));
    assert!(said("2^20").ends_with("shown up to step 1,048,576.\n"));
}

#[test]
fn a_terminal_gets_a_preview_of_its_size() {
    let scratch = Scratch::new();
    let printed = in_terminal(&scratch, 40, 30, "", "1RB1LB_1LA1RZ --exact --cell 1 --width 4 --height 4");
    let lines: Vec<&str> = printed.lines().collect();
    assert_eq!(lines.len(), 3, "two lines of half blocks and one of words: {printed:?}");
    assert!(lines[0].starts_with("\x1b[38;2;") && lines[0].ends_with("▀\x1b[0m"), "{printed:?}");
    assert!(lines[0].contains("\x1b[38;2;33;92;175m"), "the head's colour: {printed:?}");
    assert_eq!(printed.matches('▀').count(), 8);

    let printed = in_terminal(&scratch, 30, 10, "", "");
    let widest = printed.lines().map(|line| line.matches('▀').count()).max();
    assert_eq!((printed.lines().count(), widest), (9, Some(21)), "{printed:?}");
}

#[test]
fn a_preview_that_is_not_wanted_is_not_shown() {
    let scratch = Scratch::new();
    let cases = [("NO_COLOR=1", ""), ("TERM=dumb", ""), ("", "--no-preview"), ("", "--json")];
    for (environment, option) in cases {
        let printed = in_terminal(&scratch, 40, 30, environment, &format!("1RB1LB_1LA1RZ {option}"));
        assert_eq!(
            (printed.lines().count(), printed.contains('\x1b')),
            (1, false),
            "{environment} {option}: {printed:?}"
        );
    }
    assert!(in_terminal(&scratch, 40, 30, "NO_COLOR=", "1RB1LB_1LA1RZ").contains('▀'), "an empty NO_COLOR is none");
}

#[test]
fn a_terminal_gets_no_png() {
    let (status, printed) = status_in_terminal(&Scratch::new(), 90, 30, "", "--output -");
    assert_eq!(
        (status, printed.starts_with("spacetime: Standard output is a terminal")),
        (Some(2), true),
        "{printed:?}"
    );
}

#[test]
fn a_long_run_shows_a_bar_in_a_terminal_alone() {
    let long = ["0RB---_0LA---", "--locate=0,0", "--exact", "--first-step=250000000"];
    let scratch = Scratch::new();
    let printed = in_terminal(&scratch, 90, 30, "", &long.join(" "));
    assert!(printed.contains("of 250,000,000 steps"), "{printed:?}");
    let said = "Pixel 0,0: row 0, step 250,000,000, cell 0, symbol 0; head.\n";
    assert!(printed.ends_with(said), "{printed:?}");
    assert_eq!(in_terminal(&scratch, 90, 30, "TERM=dumb", &long.join(" ")), said);
    assert_said(&spacetime(long), 0, said);
}

#[test]
fn help_and_version_are_no_mistakes() {
    for (argument, words) in [("--help", "Usage: spacetime"), ("--version", "spacetime 0")] {
        let output = spacetime([argument]);
        assert!(output.status.success() && text(&output.stdout).contains(words), "{output:?}");
    }
}

#[test]
fn help_keeps_to_80_columns() {
    let help = text(&spacetime(["--help"]).stdout).to_string();
    let longest = help.lines().map(|line| line.chars().count()).max();
    assert!(longest <= Some(80), "{longest:?} columns:\n{help}");
    for words in ["Examples:", "1RB1LB_1LA1RZ", "what to write, L or R for the move", "The status is 0"] {
        assert!(help.contains(words), "{words:?} is missing:\n{help}");
    }
}

#[test]
fn the_largest_picture_is_drawn() {
    let scratch = Scratch::new();
    let file = scratch.file("large.png");
    assert!(spacetime(["--width=4096", "--height=4096", "--output", &file]).status.success());
    assert_eq!(png(&file).index.len(), 4096 * 4096);
}
