//! A call of the library, with its judges, to a file.

mod bin_row;
mod call_list;
mod click;
mod equal;
mod fit_exact;
mod fit_overview;
mod get;
mod grey;
mod head;
mod join;
mod locate;
mod mix;
mod open;
mod page;
mod picture;
mod range;
mod rgba;
mod row;
mod row_lines;
mod swept;
mod symbol_shade;
mod tallies;
mod tally_shade;
mod upright;
mod window;

pub use bin_row::BinRow;
pub use call_list::{Call, CallList};
pub use click::Click;
pub use equal::{Equal, Lent};
pub use fit_exact::FitExact;
pub use fit_overview::FitOverview;
pub use get::Get;
pub use grey::Grey;
pub use head::Head;
pub use join::Join;
pub use locate::Locate;
pub use mix::Mix;
pub use open::Open;
pub use page::Page;
pub use picture::{Fit, Picture, Source};
pub use range::Range;
pub use rgba::Rgba;
pub use row::Row;
pub use row_lines::RowLines;
pub use swept::Swept;
pub use symbol_shade::SymbolShade;
pub use tallies::Tallies;
pub use tally_shade::{MOST_CELLS, TallyShade};
pub use upright::Upright;
pub use window::Window;

use reference::{Exact, Overview, caught};

use crate::case::{Case, Difference, Fields, Verdict, hold, hold_list};
use crate::columns::{Columns, Found, ZERO};
use crate::ffi::{self, Answer, Guarded, Lending};
use crate::orders::{Frame, Pair};
use crate::record::{EXACT, FIRST_STEP, LAST_STEP, ROW_HEIGHT, ROWS, Record, STRIDE};
use crate::rows::Plain;
use crate::tape::{Side, Tape};

/// Runs the case that a text names.
pub fn replay(text: &str) -> Result<Result<Verdict, Difference>, String> {
    let fields = Fields::read(text)?;
    match fields.call {
        "bin_row" => Ok(BinRow::read(&fields)?.compare()),
        "call_list" => Ok(CallList::read(&fields)?.compare()),
        "click" => Ok(Click::read(&fields)?.compare()),
        "equal" => Ok(Equal::read(&fields)?.compare()),
        "fit_exact" => Ok(FitExact::read(&fields)?.compare()),
        "fit_overview" => Ok(FitOverview::read(&fields)?.compare()),
        "get" => Ok(Get::read(&fields)?.compare()),
        "grey" => Ok(Grey::read(&fields)?.compare()),
        "head" => Ok(Head::read(&fields)?.compare()),
        "join" => Ok(Join::read(&fields)?.compare()),
        "locate" => Ok(Locate::read(&fields)?.compare()),
        "mix" => Ok(Mix::read(&fields)?.compare()),
        "open" => Ok(Open::read(&fields)?.compare()),
        "page" => Ok(Page::read(&fields)?.compare()),
        "picture" => Ok(Picture::read(&fields)?.compare()),
        "range" => Ok(Range::read(&fields)?.compare()),
        "rgba" => Ok(Rgba::read(&fields)?.compare()),
        "row" => Ok(Row::read(&fields)?.compare()),
        "row_lines" => Ok(RowLines::read(&fields)?.compare()),
        "swept" => Ok(Swept::read(&fields)?.compare()),
        "tallies" => Ok(Tallies::read(&fields)?.compare()),
        "upright" => Ok(Upright::read(&fields)?.compare()),
        "window" => Ok(Window::read(&fields)?.compare()),
        "symbol_shade" => Ok(SymbolShade::read(&fields)?.compare()),
        "tally_shade" => Ok(TallyShade::read(&fields)?.compare()),
        other => Err(format!("{other}: no such call")),
    }
}

/// What the probes answer outside their domain: no ink has this number.
const OUTSIDE: u8 = 255;

/// What a question about columns answers where it finds nothing.
const NOTHING: u32 = 1;

/// Holds the library to the model: the output where the call is accepted, the number alone where it is refused.
fn hold_library<T: Guarded>(answer: &Answer<T>, wanted: &Result<Vec<T>, u32>) -> Result<(), Difference> {
    let wanted = match wanted {
        Ok(output) => Answer { number: 0, output: output.clone(), disturbed: Vec::new() },
        Err(number) => {
            Answer { number: *number, output: vec![T::UNWRITTEN; answer.output.len()], disturbed: Vec::new() }
        }
    };
    hold("the library", answer, &wanted)
}

/// Holds the library's answer to a question about columns to what the model finds, in a picture of a width.
fn hold_found(
    answer: &Answer<u64>,
    width: u64,
    columns: Columns,
    found: impl FnOnce() -> Option<Found>,
) -> Result<(), Difference> {
    let wanted = if columns.sound_in(width) {
        found().map_or(Err(NOTHING), |(from, to)| Ok(vec![from, to]))
    } else {
        Err(u32::from(OUTSIDE))
    };
    hold_library(answer, &wanted)
}

/// Holds the memory that is lent to a picture's calls to a plain picture.
fn hold_memory(lending: &Lending, plain: &Plain) -> Result<(), Difference> {
    hold_list("the library's record", lending.record(), &plain.record.0)?;
    hold_list("the library's index", lending.index(), &plain.index)?;
    hold_list("the library's store", lending.store(), &plain.store)?;
    hold_list("the library's tallies", lending.tallies(), &plain.tallies)
}

/// A missing pair is an empty list of ends.
fn read_swept(fields: &Fields) -> Result<Option<Pair>, String> {
    let swept: Vec<i64> = fields.numbers("swept")?;
    Ok(swept.first().copied().zip(swept.get(1).copied()))
}

fn swept_text(swept: Option<Pair>) -> String {
    swept.map_or("swept=".to_string(), |(low, high)| format!("swept={low},{high}"))
}

fn read_frame(fields: &Fields) -> Result<Frame, String> {
    let [width, height, symbols] = ["width", "height", "symbols"].map(|name| fields.number(name));
    Ok(Frame { width: width?, height: height?, symbols: symbols? })
}

/// Pictures of so few rows are asked for every one of them.
const FEW_ROWS: u32 = 16;

/// Pictures of so few pixels are given memory by the original too, and opened.
const FEW_PIXELS: usize = 2048;

/// Whether the original makes the picture of a fitted record with its memory.
fn opened(record: &Record) -> bool {
    record.index_length() <= FEW_PIXELS
}

/// Holds the original's picture to a fitted record: its grid in all the words, its range, the steps and lines of its rows
/// and, where it is opened, its memory. Range, rows and opening are asked of the library too.
fn hold_picture(record: &Record, fitted: impl FnOnce() -> reference::Picture) -> Result<(), Difference> {
    let panicked = |how| Difference(format!("the original has {how:?}, wanted {record}"));
    let picture = caught(fitted).map_err(panicked)?;
    hold_list("the original's grid", &picture.record(), &record.0)?;
    let range = picture.tape_range().map_or(Err(0), |(low, high)| Ok(vec![low, high]));
    hold("the original's range", &range, &record.range())?;
    hold_library(&ffi::range(record), &range)?;
    let rows = record.0[ROWS] as u32;
    let some = [0, 1, 2, 3, rows / 2, rows.saturating_sub(2), rows - 1, rows, rows + 1, u32::MAX];
    let all: Vec<u32> = (0..=rows).collect();
    for &row in if rows <= FEW_ROWS { &all[..] } else { &some[..] } {
        let of_row = |(step, lines): (u64, std::ops::Range<u32>)| vec![1, step, lines.start.into(), lines.end.into()];
        let lines = Ok(picture.row(row).map_or(vec![0; 4], of_row));
        hold("the original's row", &lines, &record.row_lines(row))?;
        hold_library(&ffi::row_lines(record, row), &lines)?;
    }
    if opened(record) {
        let (index, store) = (picture.index(), picture.store());
        hold("the original's index", &index, &&vec![0; record.index_length()][..])?;
        hold("the original's store", &store, &&vec![0; record.store_length()][..])?;
        Open { record: *record, index: index.len(), store: store.len() }.compare()?;
    }
    Ok(())
}

/// The original's grid for a sound record.
fn original_grid(record: &Record) -> reference::Grid {
    let words = &record.0;
    let signed = |position: u64| (position ^ ZERO).cast_signed();
    let columns = match record.columns().expect("a sound record has columns") {
        Columns::Cells { first, count, px, x0 } => {
            reference::Columns::Cells { first: signed(first), count: count as u32, px: px as u32, x0: x0 as u32 }
        }
        Columns::Bins { first, cells, width } => {
            reference::Columns::Bins { first: signed(first), cells, width: width as u32 }
        }
    };
    reference::Grid {
        columns,
        row_px: words[ROW_HEIGHT] as u32,
        rows: words[ROWS] as u32,
        first: words[FIRST_STEP],
        stride: words[STRIDE],
        last: words[LAST_STEP],
        sweeps: words[EXACT] == 0,
    }
}

fn original(tape: &Tape) -> reference::Tape {
    reference::Tape::new(tape.head, tape.cur, tape.left.runs(), tape.right.runs())
}

/// The original's `window` and its rows in bins count a run's cells in an i64, saturating: of 2^63 cells, which one run
/// may have from one end of the domain to the other, they take 2^63 - 1.
fn as_the_original_takes_it(tape: &Tape) -> Tape {
    let shortened = |side: &Side| Side {
        symbols: side.symbols.clone(),
        lengths: side.lengths.iter().map(|&length| length.min(i64::MAX as u64)).collect(),
    };
    Tape { left: shortened(&tape.left), right: shortened(&tape.right), ..tape.clone() }
}

/// An exact picture of the original's that has these columns.
fn as_the_original_lays_it_out(width: u64, columns: Columns) -> Option<reference::Picture> {
    let Columns::Cells { first, count, px, x0: _ } = columns else {
        return None;
    };
    let (low, high) = ends(first, count);
    let order =
        Exact { first_step: 0, cell_px: Some(px as u32), heads: &[low], written: Some((low, high)), halted: false };
    same_columns(reference::Picture::exact(width as u32, px as u32, 2, &order), columns)
}

/// An overview of the original's that has these columns, where there is one.
fn as_the_original_overviews_it(width: u64, columns: Columns) -> Option<reference::Picture> {
    let Columns::Cells { first, count, px, x0: _ } = columns else {
        return None;
    };
    let order = Overview { total: 0, extent: ends(first, count) };
    same_columns(reference::Picture::overview(width as u32, px as u32, 2, &order), columns)
}

/// The window's two ends as positions.
fn ends(first: u64, count: u64) -> (i64, i64) {
    let signed = |position: u64| (position ^ ZERO).cast_signed();
    (signed(first), signed(first + (count - 1)))
}

fn same_columns(picture: Option<reference::Picture>, columns: Columns) -> Option<reference::Picture> {
    let (_, first, cells, size, margin) = columns.numbers();
    let as_they_are = |picture: &reference::Picture| match picture.grid().columns {
        reference::Columns::Cells { first: found, count, px, x0 } => {
            (found, u64::from(count), u64::from(px), u64::from(x0))
                == ((first ^ ZERO).cast_signed(), cells, size, margin)
        }
        reference::Columns::Bins { .. } => false,
    };
    picture.filter(as_they_are)
}

/// The first line of a picture.
fn line_of(picture: &reference::Picture, width: u64) -> &[u8] {
    &picture.index()[..width as usize]
}

/// From the first to the last pixel with this byte; between them there has to be no other.
fn pixels_of(line: &[u8], byte: u8) -> Option<Found> {
    let from = line.iter().position(|&pixel| pixel == byte)?;
    let to = line.iter().rposition(|&pixel| pixel == byte)?;
    assert!(line[from..=to].iter().all(|&pixel| pixel == byte), "pixels with a gap");
    Some((from as u64, to as u64))
}
