//! What is drawn: sizes, cells, start words, and runs that would fill the memory.

mod common;

use std::path::Path;

use common::{CHAMPION, Scratch, assert_refused, assert_said, png, spacetime, text};

const SMALL: &str = "1RB1LB_1LA1RZ";

/// The size of the picture that these arguments give.
fn size(arguments: &[&str]) -> (u32, u32) {
    let scratch = Scratch::new();
    let output = scratch.run(&[arguments, &["--output=x.png"]].concat());
    assert!(output.status.success(), "{output:?}");
    let picture = png(&scratch.file("x.png"));
    (picture.width, picture.height)
}

#[test]
fn a_small_machine_gets_a_picture_of_its_own_size() {
    assert_eq!(size(&[SMALL]), (4 * 8, 7 * 8), "four cells and seven steps, in cells of 8 pixels");
    assert_eq!(size(&[SMALL, "--exact"]), (4 * 8, 7 * 8));
    assert_eq!(size(&[SMALL, "--exact", "--cell=20"]), (4 * 20, 7 * 20));
    assert_eq!(
        size(&[SMALL, "--exact", "--cell=100"]),
        (3 * 100, 4 * 100),
        "four rows have room, and visit three cells"
    );
    assert_eq!(size(&["1RB0LD_1LC0RA_1RA1LB_1LA1LE_1RF0LC_---0RE", "--exact"]).1, 480);
    assert_eq!(size(&[CHAMPION, "--steps=479"]).1, 480, "one line for each step");
    assert_eq!(size(&[CHAMPION, "--steps=480"]).1, 241, "one line for every other step");
    assert_eq!(size(&[CHAMPION]), (640, 480));
}

#[test]
fn given_sides_are_kept() {
    assert_eq!(size(&[SMALL, "--width=640", "--height=480"]), (640, 480));
    assert_eq!(size(&[SMALL, "--width=640"]), (640, 7 * 8));
    assert_eq!(size(&[SMALL, "--height=480"]), (4 * 8, 480));
    assert_eq!(size(&[SMALL, "--exact", "--width=33", "--height=70"]), (33, 70));
    assert_eq!(size(&[CHAMPION, "--width=1000", "--height=700"]), (1000, 700));
}

/// The picture of its own size shows what the one in the middle of the default size does.
#[test]
fn nothing_but_blank_is_cut_away() {
    for arguments in [&[SMALL][..], &[SMALL, "--exact"], &[CHAMPION, "--exact"], &[CHAMPION, "--steps=300"]] {
        let scratch = Scratch::new();
        assert!(scratch.run(&[arguments, &["--output=own.png"]].concat()).status.success());
        let given = ["--width=640", "--height=480", "--output=given.png"];
        assert!(scratch.run(&[arguments, &given].concat()).status.success());
        let (own, given) = (png(&scratch.file("own.png")), png(&scratch.file("given.png")));
        assert!(own.width < 640, "{arguments:?}");
        let [own, given] = [own, given].map(|picture| {
            let lines = picture.index.chunks(usize::try_from(picture.width).unwrap()).map(inked);
            lines.filter(|line| !line.is_empty()).collect::<Vec<_>>()
        });
        assert!(own == given, "{arguments:?}");
    }
}

/// A line from its first byte that is no paper to its last.
fn inked(line: &[u8]) -> Vec<u8> {
    let first = line.iter().position(|&byte| byte != 0).unwrap_or(line.len());
    let past = line.iter().rposition(|&byte| byte != 0).map_or(first, |last| last + 1);
    line[first..past].to_vec()
}

#[test]
fn a_cell_size_that_is_not_taken_is_said() {
    let scratch = Scratch::new();
    let said = |arguments: &[&str]| text(&scratch.run(arguments).stderr).to_string();
    assert_eq!(
        said(&[SMALL, "--exact", "--cell=500"]),
        "spacetime: --cell 500 is more than a side of the picture, and 480 is taken.\n"
    );
    assert_eq!(
        said(&[CHAMPION, "--exact", "--first-step=1,000", "--cell=30"]),
        "spacetime: The tape is cut off: cells -46 to 12 are in use, and -31 to -11 are shown.\n"
    );
    assert_eq!(said(&[SMALL, "--exact", "--cell=30"]), "");
    assert_eq!(said(&[CHAMPION, "--exact", "--first-step=1,000"]), "");
}

/// Of the tape's end, cells 0 to 9, two are shown.
#[test]
fn written_cells_that_are_left_out_are_counted() {
    let scratch = Scratch::new();
    let said = |arguments: &[&str]| text(&scratch.run(arguments).stdout).to_string();
    let walk = ["1RA---", "--steps=10", "--height=11", "--output=x.png"];
    let part = said(&[&walk[..], &["--cells=4..5"]].concat());
    assert!(part.ends_with("\nIt leaves out up to 8 written cells of a row, in 10 rows.\n"), "{part}");
    let all = said(&walk);
    assert!(!all.contains("leaves out"), "{all}");
    let object = said(&[&walk[..], &["--cells=4..5", "--json"]].concat());
    assert!(object.contains(r#""left_out":{"most":8,"rows":10}"#), "{object}");
}

#[test]
fn cells_hold_an_overview_to_a_part_of_the_tape() {
    let window = |cells: &str| {
        let output = spacetime(["--output=/dev/null", "--cells", cells]);
        text(&output.stdout).split("cells ").nth(1).unwrap().split(';').next().unwrap().to_string()
    };
    assert_eq!(window("-100..100"), "-100 to 100");
    assert_eq!(window("-5,000..-1,000"), "-5,000 to -1,000");
    assert_eq!(window("2^40..2^41"), "1,099,511,627,776 to 2,199,023,255,552", "where nothing is written");
    let located = "Pixel 0,0: row 0, step 0, cell -100, symbol 0; paper.\n";
    assert_said(&spacetime(["--cells=-100..100", "--locate=0,0"]), 0, located);
}

/// The part of a run that walks off beyond what an overview takes.
#[test]
fn cells_show_a_part_of_what_is_too_wide() {
    let walk = ["1RA---", "--steps=2^60"];
    assert_refused(&spacetime(walk), "or --cells");
    let located = "Pixel 1,479: row 479, step 1,152,921,504,606,846,976, cell 0, symbol 1; ink of share 64/64.\n";
    assert_said(&spacetime(walk.iter().chain(&["--cells=0..9", "--locate=1,479"])), 0, located);
}

#[test]
fn a_word_is_on_the_tape_at_first() {
    let line = |arguments: &[&str]| {
        let scratch = Scratch::new();
        assert!(scratch.run(&[&["--output=x.png"], arguments].concat()).status.success());
        let picture = png(&scratch.file("x.png"));
        picture.index[..usize::try_from(picture.width).unwrap()].iter().step_by(8).copied().collect::<Vec<u8>>()
    };
    let halted = "---------1RA";
    assert_eq!(line(&["--input=312", "--", halted]), [255, 27, 45], "the head on the first symbol");
    assert_eq!(line(&["--input=00010", "--", halted]), [255, 0, 0, 27], "no cell for the blank at the end");
    assert_eq!(line(&["--input=", "--", halted]), [255]);
}

/// A run for each cell: 50 million of them would take gigabytes.
#[test]
fn a_tape_of_many_runs_stays_under_200_megabytes() {
    let scratch = Scratch::new();
    let limited = |arguments: &str| scratch.bash(&format!("ulimit -v 204800; $spacetime 1RB1RB_0RA0RA {arguments}"));
    let said = "spacetime.png: 640 by 9 pixels, 9 rows, cells 0 to 5,242,880; stopped after 5,242,880 steps, with more than \
                4,194,304 runs on its tape.\n";
    assert_said(&limited("--height=9"), 0, said);
    assert!(limited("--height=9 --exact --first-step=5,000,000").status.success());
    assert_refused(&limited("--exact --first-step=50,000,000"), "more than 4,194,304 runs after 5,242,880 steps");
}

/// Two states that halt after six steps: a line for each row, with a character for each cell.
#[test]
fn a_page_has_a_line_for_each_row() {
    let scratch = Scratch::new();
    let page = scratch.run(&[SMALL, "--exact", "--cell=1", "--page"]);
    let lines: Vec<&str> = text(&page.stdout).lines().collect();
    assert_eq!(lines.len(), 7);
    assert!(lines.iter().all(|line| line.len() == 80), "{lines:?}");
    let rows: Vec<&str> = lines.iter().map(|line| line.trim()).collect();
    assert_eq!(rows, ["0 ..@.", "1 ..4@", "2 ..@4", "3 .@44", "4 @444", "5 4@44", "6 44@4"]);
    assert!(!Path::new(&scratch.file("spacetime.png")).exists(), "a page is asked for, and no file");
    assert_eq!(text(&scratch.run(&["--page"]).stdout).len(), 480 * 81, "the champion, as wide as a page takes");
    let both = scratch.run(&[SMALL, "--page", "--output=x.png", "--no-preview"]);
    assert!(text(&both.stdout).ends_with("halted after 6 steps.\n"));
    assert!(png(&scratch.file("x.png")).width <= 59);
}
