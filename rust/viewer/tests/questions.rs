//! Questions about a picture: in words, in JSON, and from a file alone.

mod common;

use std::fs::{self, File};

use common::{CHAMPION, Decoded, Scratch, assert_refused, assert_said, png, spacetime, text};
use serde_json::{Value, json};

/// The champion of two states and three symbols, which halts after 38 steps.
const THREE_SYMBOLS: &str = "1RB2LB1RZ_2LA2RB1LB";

#[test]
fn a_pixel_is_told_in_full() {
    let cases: [(&[&str], &str); 5] = [
        (&["--locate=320,240"], "320,240: row 240, step 23,637,840, cells -6,099 to -6,080; ink of share 64/64"),
        (&["--locate=0,0"], "0,0: row 0, step 0, cells -12,243 to -12,224; paper"),
        (&["--exact", "--width=640", "--locate=320,8"], "320,8: row 1, step 1, cell 0, symbol 1; ink of share 64/64"),
        (&["--exact", "--width=640", "--locate=320,0"], "320,0: row 0, step 0, cell 0, symbol 0; head"),
        (&["0RA", "--steps=8", "--height=2", "--locate=7,1"], "7,1: row 1, step 8, cell 0, symbol 0; paper"),
    ];
    for (arguments, words) in cases {
        assert_said(&spacetime(arguments), 0, &format!("Pixel {words}.\n"));
    }
    let swept = "Pixel 8,1: row 1, step 8, cell 1, symbol 0; swept.\n";
    assert_said(&spacetime(["0RA", "--steps=8", "--height=2", "--locate=8,1"]), 0, swept);
}

#[test]
fn where_nothing_is_there_the_answer_is_no() {
    let small = ["1RB1LB_1LA1RZ", "--width=33", "--height=60"];
    let no = |point: &str, why: &str| {
        let said = format!("Pixel {point}: {why}, nothing is there.\n");
        assert_said(&spacetime(small.iter().copied().chain(["--locate", point])), 1, &said);
    };
    no("32,0", "in the margin");
    no("0,56", "below the last row");
    no("33,0", "outside the picture");
    no("0,60", "outside the picture");
    no("4294967295,4294967295", "outside the picture");
}

#[test]
fn a_column_is_upright_or_the_answer_is_no_or_unknown() {
    let yes = "Column 610, rows 100 to 479: upright: a mark in each row.\n";
    assert_said(&spacetime(["--upright=610,100,479"]), 0, yes);
    let no = "Column 0, rows 0 to 9: not upright: no mark in row 0 and 9 more.\n";
    assert_said(&spacetime(["--upright=0,0,9"]), 1, no);
    let unknown = "Column 600, rows 100 to 479: unknown: the head stands on it in row 431.\n";
    assert_said(&spacetime(["--upright=600,100,479"]), 1, unknown);
    assert_refused(&spacetime(["1RB1LB_1LA1RZ", "--upright=32,0,0"]), "a column up to 31, and rows up to 6");
}

/// Cells 0 and 1 of this machine are written from steps 1 and 2 on, and the head passes over both; at step 0 it is on cell 0, blank.
#[test]
fn upright_columns_are_listed_by_their_ranges() {
    let small = |rows: &str| spacetime(["1RB1LB_1LA1RZ", rows]);
    assert_said(&small("--uprights=0..6"), 1, "Rows 0 to 6: no column upright.\n");
    assert_said(&small("--uprights=1..6"), 0, "Rows 1 to 6: 8 columns upright: 16 to 23.\n");
    assert_said(&small("--uprights=2..6"), 0, "Rows 2 to 6: 16 columns upright: 16 to 31.\n");
    assert_said(&spacetime(["--uprights=0..479"]), 1, "Rows 0 to 479: no column upright; 1 column unknown: 637.\n");
    assert_refused(&small("--uprights=0..7"), "rows up to 6");
}

#[test]
fn the_ranges_have_the_columns_that_are_upright_one_by_one() {
    let columns: Vec<String> = (0..640).map(|column| format!("--upright={column},100,479")).collect();
    let output = spacetime(columns.iter().map(String::as_str).chain(["--uprights=100..479", "--json"]));
    let said: Value = serde_json::from_slice(&output.stdout).unwrap();
    let single = |answer: &Value| -> Vec<u64> {
        let columns = said["upright"].as_array().unwrap().iter();
        columns.filter(|column| column["upright"] == *answer).map(|column| column["column"].as_u64().unwrap()).collect()
    };
    let ranges = |name: &str| -> Vec<[u64; 2]> { serde_json::from_value(said["uprights"][0][name].clone()).unwrap() };
    for (answer, name) in [(json!(true), "upright"), (Value::Null, "unknown")] {
        let ranges = ranges(name);
        assert!(ranges.len() > 50 && ranges.windows(2).all(|pair| pair[0][1] + 1 < pair[1][0]), "{ranges:?}");
        assert_eq!(ranges.iter().flat_map(|[first, last]| *first..=*last).collect::<Vec<_>>(), single(&answer));
    }
}

#[test]
fn several_questions_are_answered_in_one_run() {
    let output =
        spacetime(["--locate=0,0", "--locate=640,0", "--locate=1,1", "--upright=600,100,479", "--upright=0,0,9"]);
    let starts: Vec<&str> = text(&output.stdout).lines().map(|line| line.split(':').next().unwrap()).collect();
    assert_eq!(
        starts,
        ["Pixel 0,0", "Pixel 640,0", "Pixel 1,1", "Column 600, rows 100 to 479", "Column 0, rows 0 to 9"]
    );
    assert_eq!(output.status.code(), Some(1), "some answer is no");
}

#[test]
fn programs_get_json() {
    let scratch = Scratch::new();
    let output = scratch.run(&[
        THREE_SYMBOLS,
        "--json",
        "--output=x.png",
        "--input=02",
        "--width=90",
        "--locate=41,9",
        "--locate=90,0",
        "--locate=0,0",
        "--upright=0,0,0",
    ]);
    assert_eq!((output.status.code(), output.stderr.is_empty()), (Some(1), true), "{output:?}");
    let said: Value = serde_json::from_slice(&output.stdout).unwrap();
    let file = png(&scratch.file("x.png"));
    let expected = json!({
        "machine": THREE_SYMBOLS, "input": "02", "mode": "overview", "width": 90, "height": file.height, "cell": 8,
        "row_height": 8, "rows": file.height / 8, "window": said["window"], "left_out": { "rows": 0, "most": 0 },
        "first_step": 0, "last_step": said["last_step"], "end": "halted", "file": "x.png", "notes": [],
        "locate": [
            said["locate"][0],
            { "x": 90, "y": 0, "place": "outside" },
            { "x": 0, "y": 0, "place": "margin" },
        ],
        "upright": [{ "column": 0, "first_row": 0, "last_row": 0, "upright": false, "row": 0 }], "uprights": [],
    });
    assert_eq!(said, expected);
}

#[test]
fn json_says_what_a_pixel_shows() {
    let output = spacetime([THREE_SYMBOLS, "--exact", "--json", "--locate=48,8", "--locate=56,8"]);
    let said: Value = serde_json::from_slice(&output.stdout).unwrap();
    let cell = |x: u32, position: i64, symbol: u8, drawn: &str, share: Option<f64>| {
        json!({
            "x": x, "y": 8, "place": "row", "row": 1, "step": 1, "from": position, "to": position, "symbol": symbol,
            "drawn": drawn, "share": share,
        })
    };
    assert_eq!(said["locate"], json!([cell(48, 0, 1, "ink", Some(36.0 / 64.0)), cell(56, 1, 0, "head", None)]));
}

#[test]
fn a_file_says_what_it_shows() {
    let scratch = Scratch::new();
    assert!(scratch.run(&[]).status.success());
    let texts = png(&scratch.file("spacetime.png")).texts;
    let texts: Vec<(&str, &str)> = texts.iter().map(|(keyword, text)| (keyword.as_str(), text.as_str())).collect();
    assert_eq!(
        texts[..7],
        [
            ("Machine", CHAMPION),
            ("Input", ""),
            ("Mode", "overview"),
            ("Size", "640x480"),
            ("Window", "-12243..45"),
            ("Steps", "0..47176870"),
            ("Cell size", "less than a pixel"),
        ]
    );
}

/// Every pixel, and some beside the picture, asked of the run and of its file.
#[test]
fn a_file_answers_as_the_run_does() {
    let orders: [&[&str]; 5] = [
        &[THREE_SYMBOLS, "--width=50", "--height=45"],
        &[THREE_SYMBOLS, "--exact", "--cell=3", "--width=40", "--height=30", "--first-step=7"],
        &["1RB2LA1RA1RA_1LB1LA3RB1RZ", "--steps=3000", "--width=30", "--height=40", "--dark"],
        &[
            "1RB9LA3RB0LB4RA5LB6RA7LA8RB2RA_2LA1RB0LA9RB4LB3RA6LB5RB8LA7RB",
            "--exact",
            "--input=9876543210",
            "--width=60",
        ],
        &[CHAMPION, "--cells=-20..5", "--steps=900", "--width=26", "--height=30"],
    ];
    for order in orders {
        let scratch = Scratch::new();
        assert!(scratch.run(&[order, &["--output=x.png"]].concat()).status.success());
        let Decoded { width, height, .. } = png(&scratch.file("x.png"));
        let points: Vec<String> =
            (0..height + 2).flat_map(|y| (0..width + 2).map(move |x| format!("{x},{y}"))).collect();
        let asked: Vec<String> = points.iter().map(|point| format!("--locate={point}")).collect();
        let run = spacetime(order.iter().copied().chain(asked.iter().map(String::as_str)));
        let file = spacetime(["locate", &scratch.file("x.png")].into_iter().chain(points.iter().map(String::as_str)));
        assert_eq!((run.status.code(), file.status.code()), (Some(1), Some(1)));
        assert!(text(&run.stdout) == text(&file.stdout), "{order:?}: the answers differ");
    }
}

#[test]
fn a_file_answers_in_json_too() {
    let scratch = Scratch::new();
    assert!(scratch.run(&["1RB1LB_1LA1RZ"]).status.success());
    let output = scratch.run(&["locate", "spacetime.png", "0,0", "--json"]);
    let said: Value = serde_json::from_slice(&output.stdout).unwrap();
    assert_eq!((output.status.code(), &said["file"]), (Some(0), &json!("spacetime.png")));
    assert_eq!(said["locate"][0]["symbol"], 0);
}

#[test]
fn equal_pictures_are_told_from_files_and_machines() {
    let scratch = Scratch::new();
    let machine = "1RB1LB_1LA1RZ";
    assert!(scratch.run(&[machine, "--output=a.png"]).status.success());
    assert!(scratch.run(&[machine, "--output=dark.png", "--dark"]).status.success());
    for pair in [["a.png", "dark.png"], ["a.png", machine], [machine, "./a.png"], [machine, machine]] {
        assert_said(&scratch.run(&["equal", pair[0], pair[1]]), 0, "Equal.\n");
    }
    let said: Value = serde_json::from_slice(&scratch.run(&["equal", "a.png", machine, "--json"]).stdout).unwrap();
    assert_eq!(said, json!({ "a": "a.png", "b": machine, "equal": true, "differ": null }));
}

/// What two pictures differ in first: in each line the orders are the same but for one thing.
#[test]
fn what_differs_first_is_said() {
    let small = ["1RB1LB_1LA1RZ", "--width=40", "--height=56"];
    let exact = |options: &[&'static str]| [&small[..], &["--exact"], options].concat();
    let cases: [(Vec<&str>, Vec<&str>, &str, Value); 7] = [
        (small.to_vec(), vec!["1RB1LB_1LA1RZ"], "40 pixels wide and 32", json!({ "in": "width", "values": [40, 32] })),
        (
            small.to_vec(),
            [&small[..2], &["--height=57"]].concat(),
            "56 pixels high and 57",
            json!({ "in": "height", "values": [56, 57] }),
        ),
        (
            small.to_vec(),
            [&small[..], &["--cells=0..3"]].concat(),
            "cells -2 to 2 and 0 to 4",
            json!({ "in": "window", "values": [[-2, 2], [0, 4]] }),
        ),
        (
            small.to_vec(),
            [&small[..], &["--steps=5"]].concat(),
            "7 rows and 6",
            json!({ "in": "rows", "values": [7, 6] }),
        ),
        (
            exact(&["--steps=4", "--cell=8"]),
            exact(&["--steps=5", "--first-step=1", "--cell=8"]),
            "row 0 at step 0 and 1",
            json!({ "in": "step", "row": 0, "values": [0, 1] }),
        ),
        (
            vec!["0RA", "--steps=3", "--width=40"],
            vec!["1RA---", "--steps=3", "--width=40"],
            "pixel 0,8: paper and ink of share 64/64",
            json!({ "in": "pixel", "x": 0, "y": 8, "values": ["paper", "ink"] }),
        ),
        // An overview that shows every step is the exact picture.
        (small.to_vec(), exact(&["--cell=8"]), "", Value::Null),
    ];
    for (first, second, words, differ) in cases {
        let scratch = Scratch::new();
        for (order, file) in [(first, "--output=a.png"), (second, "--output=b.png")] {
            assert!(scratch.run(&[&order[..], &[file]].concat()).status.success());
        }
        let (status, said) =
            if differ.is_null() { (0, "Equal.\n".into()) } else { (1, format!("Different: {words}.\n")) };
        assert_said(&scratch.run(&["equal", "a.png", "b.png"]), status, &said);
        let json: Value = serde_json::from_slice(&scratch.run(&["equal", "a.png", "b.png", "--json"]).stdout).unwrap();
        assert_eq!((&json["equal"], &json["differ"]), (&json!(differ.is_null()), &differ));
    }
}

/// Two machines that the head hides: one blank under it, and one written.
#[test]
fn a_symbol_under_the_head_makes_a_difference() {
    let scratch = Scratch::new();
    for (input, file) in [("0", "--output=a.png"), ("1", "--output=b.png")] {
        assert!(scratch.run(&["1RZ1RZ", "--exact", "--input", input, "--steps=0", file]).status.success());
    }
    let [a, b] = ["a.png", "b.png"].map(|file| png(&scratch.file(file)));
    assert!(a.rgba() == b.rgba(), "they look equal");
    let said = "Different: they look equal, but in row 0 cell 0 has symbol 0 and 1.\n";
    assert_said(&scratch.run(&["equal", "a.png", "b.png"]), 1, said);
}

#[test]
fn a_foreign_file_is_refused() {
    let scratch = Scratch::new();
    let ask = |file: &str| scratch.run(&["locate", file, "0,0"]);
    assert_refused(&ask("none.png"), "cannot be read");
    fs::write(scratch.file("words.png"), "no picture").unwrap();
    assert_refused(&ask("words.png"), "is no picture of this command's");
    assert_refused(&ask("."), "is no picture of this command's");
}

/// One cell of 8 pixels and one row of 8 lines, and the same with 2^60 rows; position 0 is 2^63.
const RECORD: &str = "8,8,2,0,0,9223372036854775808,1,8,0,8,1,0,1,0,1,0,0";
const UNSOUND: &str = "8,8,2,0,0,9223372036854775808,1,8,0,8,1152921504606846976,0,1,0,1,0,0";

#[test]
fn a_changed_file_is_refused() {
    let scratch = Scratch::new();
    assert!(scratch.run(&["--output=x.png", "--", "---1RA"]).status.success());
    let whole = png(&scratch.file("x.png"));
    let asked = |width: u32, palette: &[u8], record: Option<&str>| {
        write_png(&scratch.file("changed.png"), width, palette, record);
        scratch.run(&["locate", "changed.png", "0,0"])
    };
    assert_said(&asked(8, &whole.palette, Some(RECORD)), 0, "Pixel 0,0: row 0, step 0, cell 0, symbol 0; paper.\n");
    let reversed: Vec<u8> = whole.palette.chunks(3).rev().flatten().copied().collect();
    for output in [
        asked(8, &whole.palette, None),
        asked(8, &whole.palette, Some("1,2,3")),
        asked(8, &whole.palette, Some(UNSOUND)),
        asked(9, &whole.palette, Some(RECORD)),
        asked(8, &reversed, Some(RECORD)),
    ] {
        assert_refused(&output, "is no picture of this command's");
    }
}

/// A blank file of 8 lines with such a record.
fn write_png(file: &str, width: u32, palette: &[u8], record: Option<&str>) {
    let mut encoder = png::Encoder::new(File::create(file).unwrap(), width, 8);
    encoder.set_color(png::ColorType::Indexed);
    encoder.set_depth(png::BitDepth::Eight);
    encoder.set_palette(palette.to_vec());
    if let Some(record) = record {
        encoder.add_text_chunk("Record".to_string(), record.to_string()).unwrap();
    }
    let mut writer = encoder.write_header().unwrap();
    writer.write_image_data(&vec![0; 8 * usize::try_from(width).unwrap()]).unwrap();
}
