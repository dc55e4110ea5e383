//! Colouring of the largest picture, beside a plain copy of as many bytes as it writes.

use std::hint::black_box;

use reference::{Overview, Palette, Picture, Tape};

use crate::ffi;
use crate::measure::measure;

const SIDE: u32 = 4096;

/// Each palette as ours is handed it and as the original is.
const PALETTES: [(&str, [u8; 9], Palette); 2] = [("LIGHT", LIGHT, Palette::LIGHT), ("DARK", DARK, Palette::DARK)];

const LIGHT: [u8; 9] = [0xff, 0xff, 0xff, 0x11, 0x11, 0x11, 0x21, 0x5c, 0xaf];
const DARK: [u8; 9] = [0x0e, 0x0e, 0x0e, 0xf1, 0xf1, 0xf1, 0x7b, 0xa7, 0xf0];

pub fn run() {
    let picture = drawn();
    let index = picture.index();
    let mut out = vec![0; index.len() * 4];
    let mut plain = vec![0; index.len() * 4];
    println!("## Colouring {SIDE} × {SIDE}\n");
    println!(
        "| palette | ours | Rust | ratio | copy | ours / copy | copy into fresh memory | plain loop | that / copy |"
    );
    println!("|---|---|---|---|---|---|---|---|---|");
    for (name, palette, theirs) in PALETTES {
        let source = picture.rgba(&theirs);
        let mut copy = vec![0; source.len()];
        let measured = measure([
            &mut || assert_eq!(ffi::rgba(index, &palette, black_box(&mut out)), 0),
            &mut || drop(black_box(picture.rgba(&theirs))),
            &mut || black_box(&mut copy).copy_from_slice(black_box(&source)),
            &mut || drop(black_box(source.clone())),
            &mut || paint(index, &theirs, black_box(&mut plain)),
        ]);
        assert!(out == source && plain == source && copy == source, "the sides colour alike");
        let [ours, rust, copied, fresh, looped] = std::array::from_fn(|side| measured.time(side));
        let [by_rust, by_copy, loop_by_copy] = [(0, 1), (0, 2), (4, 2)].map(|(one, other)| measured.ratio(one, other));
        println!(
            "| {name} | {ours} | {rust} | {by_rust} | {copied} | {by_copy} | {fresh} | {looped} | {loop_by_copy} |"
        );
    }
    println!();
    tables();
}

/// What a call costs before its first pixel: ours colours one byte, the original makes its table.
fn tables() {
    println!("## A palette's table\n");
    println!("| palette | ours, with one pixel | Rust | ratio |");
    println!("|---|---|---|---|");
    for (name, palette, theirs) in PALETTES {
        let mut out = [0; 4];
        let mut made = reference::colour_table(&theirs);
        let measured = measure([
            &mut || assert_eq!(ffi::rgba(black_box(&[1]), black_box(&palette), black_box(&mut out)), 0),
            &mut || made = black_box(reference::colour_table(black_box(&theirs))),
        ]);
        assert_eq!(out, [made[1].0, made[1].1, made[1].2, 255], "the sides colour alike");
        println!("| {name} | {}", measured.cells());
    }
    println!();
}

/// A picture with many shades: rows of a few tapes in turn.
fn drawn() -> Picture {
    let extent = (0, (1 << 20) - 1);
    let order = Overview { total: u64::from(SIDE) - 1, extent };
    let mut picture = Picture::overview(SIDE, SIDE, 2, &order).expect("a size that is taken");
    let tapes: Vec<Tape> = (1..=16)
        .map(|kind: u64| {
            let runs = (0..2000).map(|run| ((run % 2) as u8, 1 + (run * kind * 7919) % (97 * kind)));
            Tape::new(0, 0, [], runs)
        })
        .collect();
    for row in 0..SIDE as usize {
        picture.draw(&tapes[row % tapes.len()], None);
    }
    picture
}

/// The original's loop, with four bytes to a table's entry and into memory that is lent.
fn paint(index: &[u8], palette: &Palette, out: &mut [u8]) {
    let table = reference::colour_table(palette).map(|colour| [colour.0, colour.1, colour.2, 255]);
    for (pixel, &byte) in out.chunks_exact_mut(4).zip(index) {
        pixel.copy_from_slice(&table[usize::from(byte)]);
    }
}
