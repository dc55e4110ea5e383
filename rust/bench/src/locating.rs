//! What a pixel shows, in cells and in bins.

use std::hint::black_box;

use crate::drawing::{one_row, tape};
use crate::ffi;
use crate::measure::measure;
use crate::picture;

const WIDTH: u32 = 4096;

pub fn run() {
    println!("## Locating a pixel\n");
    println!("| columns | ours | Rust | ratio |");
    println!("|---|---|---|---|");
    for (name, cells) in [("cells, p 1", 4096), ("cells, p 8", 512), ("bins over 2^20 cells", 1 << 20)] {
        locate(name, cells);
    }
    locate("bins over 2^50 cells", 1 << 50);
    println!();
}

/// A pixel in the row that is drawn, right of the middle.
fn locate(name: &str, cells: i64) {
    let tape = tape(cells, 100);
    let mut original = one_row((WIDTH, 1), cells);
    original.draw(&tape.original(), None);
    let mut ours = picture::beside(&original);
    ffi::row(&mut ours, &tape, None);
    let mut found = ffi::Found::default();
    let measured =
        measure([&mut || ffi::locate(black_box(&ours), black_box((3001, 0)), black_box(&mut found)), &mut || {
            black_box(&black_box(&original).locate(black_box(3001), black_box(0)));
        }]);
    let wanted = original.locate(3001, 0);
    assert!(wanted.is_some() && found.original() == wanted, "the sides locate alike");
    println!("| {name} | {}", measured.cells());
}
