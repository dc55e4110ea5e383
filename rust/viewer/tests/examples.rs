//! The examples of the README and of the help, each run as it stands there.

mod common;

use std::fs;
use std::os::unix::fs::symlink;

use common::{PROGRAM, Scratch, png, spacetime, text};

/// Runs the lines that start so, in one folder and in their order; the folder, and how many there were.
fn run(lines: &str, start: &str) -> (Scratch, usize) {
    let scratch = Scratch::new();
    symlink(PROGRAM, scratch.file("spacetime")).unwrap();
    let examples: Vec<&str> =
        lines.lines().filter(|line| *line == start || line.starts_with(&format!("{start} "))).collect();
    for example in &examples {
        let output = scratch.bash(&format!("PATH=.:$PATH; {example}"));
        assert!(output.status.success(), "{example}: {output:?}");
    }
    (scratch, examples.len())
}

#[test]
fn the_examples_of_the_readme_are_run() {
    let readme = fs::read_to_string(concat!(env!("CARGO_MANIFEST_DIR"), "/../../README.md")).unwrap();
    let (scratch, count) = run(&readme, "    ./spacetime");
    assert!(count > 5, "{count} examples");
    let shown = png(concat!(env!("CARGO_MANIFEST_DIR"), "/../../docs/champion.png"));
    assert!(
        png(&scratch.file("spacetime.png")).rgba() == shown.rgba(),
        "the last picture of that name is the champion"
    );
}

#[test]
fn the_examples_of_the_help_are_run() {
    let help = spacetime(["--help"]);
    let (scratch, count) = run(text(&help.stdout), "  spacetime");
    assert_eq!(count, 12);
    assert!(png(&scratch.file("champion.png")).width == 640);
}
