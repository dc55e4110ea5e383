//! What the command says to bad input: one sentence, and status 2.

mod common;

use std::ffi::OsString;
use std::os::unix::ffi::OsStringExt;

use common::{CHAMPION, ENDLESS, Scratch, assert_failed, assert_refused, assert_said, spacetime, text};

#[test]
fn mistakes_get_one_sentence() {
    let cases: [(&[&str], &str); 44] = [
        (&["--width", "0"], "--width `0` will not do: give a whole number from 1 to 4096"),
        (&["--width", "4097"], "from 1 to 4096"),
        (&["--height", "-1"], "--height `-1` will not do"),
        (&["--height", "99999999999999999999"], "from 1 to 4096"),
        (&["--width", "1e3"], "whole number"),
        (&["--width", "1,5"], "whole number"),
        (&["--width", ""], "whole number"),
        (&["--width"], "`--width` has no value"),
        (&["--width", "5", "--width", "6"], "`--width` is given twice"),
        (&["--steps", "18446744073709551616"], "from 0 to 18446744073709551615"),
        (&["--steps", "2^64"], "from 0 to 18446744073709551615"),
        (&["--exact", "--cell", "0"], "from 1 to 4096"),
        (&["--cell", "2"], "give --exact"),
        (&["--first-step", "2"], "give --exact"),
        (&["--exact", "--first-step", "9", "--steps", "8"], "below --first-step"),
        (&["--exact", "--first-step", "47176871"], "halts after 47,176,870 steps"),
        (&["--exact", "--cells", "0..9"], "without --exact"),
        (&["--cells", "9"], "as in -100..100"),
        (&["--cells", "9..0"], "as in -100..100"),
        (&["--cells", "0..2^50"], "at most 2^50"),
        (&["--cells", "0..2^63"], "as in -100..100"),
        (&["--input", "12"], "the machine's symbols, 0 to 1"),
        (&["--input", "x"], "the machine's symbols, 0 to 1"),
        (&["--locate", "1"], "two numbers"),
        (&["--locate", "-1,5"], "two numbers"),
        (&["--locate", "1,2,3"], "two numbers"),
        (&["--upright", "1,2"], "three numbers"),
        (&["--upright", "640,0,0"], "a column up to 639"),
        (&["--upright", "0,5,4"], "first one first"),
        (&["--uprights", "5"], "as in 0..99"),
        (&["--uprights", "5..4"], "first one first"),
        (&["--uprights", "-1..4"], "first one first"),
        (&["--page", "--width", "60"], "--page takes pictures up to 59 pixels wide: give --width 59 or less"),
        (&["--page", "--json"], "without --json"),
        (&["--page", "--output", "-"], "without --output -"),
        (&["--colour", "red"], "`--colour` is no option"),
        (&["--dark=yes"], "takes no value"),
        (&["locate"], "wants a file and pixels"),
        (&["locate", "x.png"], "wants a file and pixels"),
        (&["locate", "x.png", "5"], "two numbers"),
        (&["equal"], "wants two files or machines"),
        (&["equal", "x.png"], "wants two files or machines"),
        (&["equal", "none.png", "none.png"], "`none.png` cannot be read"),
        (&["equal", "1RA---", "1RC---"], "names state C"),
    ];
    for (arguments, words) in cases {
        assert_refused(&spacetime(arguments), words);
    }
}

#[test]
fn damaged_machines_are_refused() {
    let cases = [
        ("", "is no machine"),
        ("hello", "is no machine"),
        ("1RB1LC_1RC1RB_1RD0LE_1LA1LD_1RZ0L", "State `1RZ0L` has another length"),
        ("1RB1LC 1RC1RB", "is no machine"),
        ("1RB2LC", "Entry `2LC` is none"),
        ("1RB1SC", "Entry `1SC` is none"),
        ("１RB1LC", "is no machine"),
        ("\u{1b}[2J\u{1b}[31m", "Entry `\\u{1b}[2` is none"),
        ("1RB\n1LC", "is no machine"),
    ];
    for (machine, words) in cases {
        assert_refused(&spacetime(["--", machine]), words);
    }
    assert_refused(&spacetime(["1RB1LA_".repeat(10_000)]), "at most 26 states");
    assert_refused(&spacetime(["x".repeat(100_000)]), "is no machine");
    assert_refused(&spacetime(["1RA---", "1RA---"]), "one argument too many");
    assert_refused(&spacetime(["---1RA"]), "begins with - after `--`");
}

#[test]
fn a_machine_misread_is_refused() {
    let scratch = Scratch::new();
    let without_breaks = CHAMPION.replace('_', "");
    assert_refused(&scratch.run(&[&without_breaks]), "Entry `1LC` (state A, symbol 1) names state C, which has no row");
    assert_refused(&scratch.run(&[&CHAMPION[..20]]), "Entry `0LE` (state C, symbol 1) names state E, which has no row");
    assert_refused(&scratch.run(&["1RH1LZ"]), "Entry `1LZ` (state A, symbol 1) names state Z");
    assert!(scratch.names().is_empty(), "nothing is drawn");
}

#[test]
fn a_halt_that_may_be_a_lost_row_is_told() {
    let scratch = Scratch::new();
    let output = scratch.run(&["1RB1LC_1RC1RB"]);
    assert_eq!(output.status.code(), Some(0));
    assert_eq!(text(&output.stderr), "spacetime: State C has no row, and is taken as the halt.\n");
    for halt in ["Z", "H"] {
        assert!(scratch.run(&[&format!("1RB1LB_1LA1R{halt}")]).stderr.is_empty());
    }
}

#[test]
fn white_space_around_a_machine_is_taken() {
    let scratch = Scratch::new();
    let said = "Pixel 0,0: row 0, step 0, cells -12,243 to -12,224; paper.\n";
    assert_said(&scratch.run(&["--locate=0,0", &format!("\t {CHAMPION} \r\n")]), 0, said);
}

#[test]
fn hostile_arguments_are_refused() {
    let scratch = Scratch::new();
    assert_refused(&spacetime([OsString::from_vec(vec![0xff, 0xfe])]), "not UTF-8");
    assert_refused(&spacetime([OsString::from_vec(b"--width=\xff".to_vec())]), "not UTF-8");
    let written = spacetime(["--output", &scratch.file("\u{1b}[2J.png")]);
    assert!(written.status.success() && !written.stdout.contains(&b'\x1b'), "{written:?}");
    assert_refused(&spacetime(["1RA---", "--steps", "18446744073709551615"]), "at most 2^50");
    assert_refused(&spacetime(["1RA---", "--exact", "--first-step", "1125899906842624"]), "more than 2^50");
    assert_refused(
        &spacetime(["1RA---", "--exact", "--first-step", "18446744073709551615"]),
        "2^62 cells from its start",
    );
}

#[test]
fn an_option_is_no_file_name() {
    let scratch = Scratch::new();
    assert_refused(&scratch.run(&["--output", "--dark"]), "`--output` has no value");
    assert_refused(&scratch.run(&["-o", "--dark"]), "`--output` has no value");
    assert!(scratch.names().is_empty());
    assert!(scratch.run(&["--output=--dark"]).status.success(), "meant so");
    assert_eq!(scratch.names(), ["--dark"]);
}

/// The run would not end, so that the answer comes before it, or never.
#[test]
fn what_cannot_be_done_is_found_before_the_run() {
    let scratch = Scratch::new();
    let endless = |arguments: &[&str]| scratch.run(&[&ENDLESS, arguments].concat());
    assert_refused(&endless(&["--output", ""]), "`--output` has no value");
    for file in ["no/such/folder.png", "/", &"x".repeat(300)] {
        assert_failed(&endless(&["--output", file]), 3, "name another file with --output");
    }
    assert_refused(&endless(&["--upright", "640,0,0"]), "a column up to 639");
    assert_refused(&endless(&["--upright", "99,0,0", "--width", "99"]), "a column up to 98");
    assert_refused(&endless(&["--upright", "0,0,480"]), "rows up to 479");
    assert_refused(&endless(&["--uprights", "0..480"]), "rows up to 479");
    assert_refused(&endless(&["--input", "2"]), "the machine's symbols");
    let outside =
        "Pixel 640,0: outside the picture, nothing is there.\nPixel 0,480: outside the picture, nothing is there.\n";
    assert_said(&endless(&["--locate=640,0", "--locate=0,480"]), 1, outside);
    assert!(scratch.names().is_empty());
}
