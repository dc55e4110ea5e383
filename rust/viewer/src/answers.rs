//! Questions about a picture, and the answers in words and in JSON.

use std::ops::RangeInclusive;

use serde_json::{Value, json};
use spacetime::{CellRef, Picture, Upright, index};

use crate::failure::{DONE, NO};
use crate::words::{counted, grouped};

/// A pixel's column and line.
pub type Point = (u32, u32);

/// The first and the last of some rows.
pub type Rows = (u32, u32);

/// A column, and the rows that it is asked for.
pub type Column = (u32, Rows);

/// What is asked of a picture.
#[derive(Clone, Debug, Default)]
pub struct Questions {
    pub locate: Vec<Point>,
    pub upright: Vec<Column>,
    /// Of all columns at once.
    pub uprights: Vec<Rows>,
}

impl Questions {
    pub fn is_empty(&self) -> bool {
        self.locate.is_empty() && self.upright.is_empty() && self.uprights.is_empty()
    }
}

/// What a pixel shows, or why it shows nothing.
#[derive(Copy, Clone, Debug, PartialEq, Eq)]
enum Located {
    Cells {
        row: u32,
        cells: CellRef,
        mark: Mark,
    },
    Margin,
    /// Below the last row.
    Undrawn,
    Outside,
}

/// What an index byte means.
#[derive(Copy, Clone, Debug, PartialEq, Eq)]
pub enum Mark {
    Paper,
    /// Ink of that many of 64 parts.
    Ink(u8),
    Swept,
    Head,
}

/// Whether a column is upright, and the rows that keep it from being so: those that say no, or unknown.
#[derive(Clone, Debug)]
struct Stands {
    upright: Upright,
    rows: Vec<u32>,
}

/// The columns that are upright, and those of which it is unknown, as ranges that cannot be longer.
#[derive(Clone, Debug, Default)]
struct Standing {
    upright: Vec<RangeInclusive<u32>>,
    unknown: Vec<RangeInclusive<u32>>,
}

/// The answers to some questions, in their order.
#[derive(Debug, Default)]
pub struct Answers {
    located: Vec<(Point, Located)>,
    upright: Vec<(Column, Stands)>,
    uprights: Vec<(Rows, Standing)>,
}

impl Answers {
    /// Asks the picture. A column or row beyond it gets a sentence.
    pub fn of(picture: &Picture, questions: &Questions) -> Result<Self, String> {
        let located = questions.locate.iter().map(|&point| (point, locate(picture, point))).collect();
        let upright = questions.upright.iter().map(|&asked| stands(picture, asked).map(|stands| (asked, stands)));
        let uprights = questions.uprights.iter().map(|&rows| standing(picture, rows).map(|standing| (rows, standing)));
        Ok(Self { located, upright: upright.collect::<Result<_, _>>()?, uprights: uprights.collect::<Result<_, _>>()? })
    }

    /// The answers that need no run: only pixels are asked for that lie outside the largest size that the picture can get.
    pub fn before_the_run(questions: &Questions, (width, height): (u32, u32)) -> Option<Self> {
        let all_outside = questions.locate.iter().all(|&(x, y)| x >= width || y >= height);
        let located = questions.locate.iter().map(|&point| (point, Located::Outside)).collect();
        let no_columns = questions.upright.is_empty() && questions.uprights.is_empty();
        (all_outside && no_columns).then_some(Self { located, ..Self::default() })
    }

    /// The status that tells whether some pixel shows nothing, some column is not known to be upright, or none is found.
    pub fn status(&self) -> u8 {
        let nothing = self.located.iter().any(|(_, located)| !matches!(located, Located::Cells { .. }));
        let not_upright = self.upright.iter().any(|(_, stands)| stands.upright != Upright::Yes);
        let none = self.uprights.iter().any(|(_, standing)| standing.upright.is_empty());
        if nothing || not_upright || none { NO } else { DONE }
    }

    /// A line for each.
    pub fn words(&self) -> String {
        let located = self.located.iter().map(|((x, y), located)| format!("Pixel {x},{y}: {}.\n", located.words()));
        let upright = self.upright.iter().map(|((column, (first, last)), stands)| {
            format!("Column {column}, rows {first} to {last}: {}.\n", stands.words())
        });
        let uprights = self
            .uprights
            .iter()
            .map(|((first, last), standing)| format!("Rows {first} to {last}: {}.\n", standing.words()));
        located.chain(upright).chain(uprights).collect()
    }

    /// The three lists.
    pub fn json(&self) -> [Value; 3] {
        let located = self.located.iter().map(|((x, y), located)| located.json(*x, *y));
        let upright = self.upright.iter().map(|((column, (first_row, last_row)), stands)| {
            json!({
                "column": column, "first_row": first_row, "last_row": last_row, "upright": stands.json(),
                "row": stands.rows.first(),
            })
        });
        let uprights = self.uprights.iter().map(|((first_row, last_row), standing)| {
            json!({
                "first_row": first_row, "last_row": last_row, "upright": ends(&standing.upright),
                "unknown": ends(&standing.unknown),
            })
        });
        [located.collect(), upright.collect(), uprights.collect()]
    }
}

fn locate(picture: &Picture, (x, y): Point) -> Located {
    if x >= picture.width() || y >= picture.height() {
        return Located::Outside;
    }
    let row = y / picture.row_height();
    match picture.locate(x, y) {
        Some(cells) => Located::Cells { row, cells, mark: mark(picture, (x, y)) },
        None if row < picture.rows_done() => Located::Margin,
        None => Located::Undrawn,
    }
}

/// What is drawn at a pixel of the picture.
pub fn mark(picture: &Picture, (x, y): Point) -> Mark {
    let at = u64::from(y) * u64::from(picture.width()) + u64::from(x);
    match picture.index_buffer()[usize::try_from(at).expect("at most 4096 × 4096")] {
        index::PAPER => Mark::Paper,
        index::SWEPT => Mark::Swept,
        index::HEAD => Mark::Head,
        ink => Mark::Ink(ink),
    }
}

/// Whether a column is upright, or a sentence where it is asked for beyond the picture. The rows are found by the same question,
/// of one row at a time.
fn stands(picture: &Picture, (column, (first, last)): Column) -> Result<Stands, String> {
    let ask = |rows| picture.upright(column, rows).map_err(|_| beyond(picture.width(), picture.rows_done()));
    let upright = ask(first..=last)?;
    let keeps = |row: &u32| upright != Upright::Yes && ask(*row..=*row) == Ok(upright);
    Ok(Stands { upright, rows: (first..=last).filter(keeps).collect() })
}

/// Which columns are upright, by the same question of each.
fn standing(picture: &Picture, (first, last): Rows) -> Result<Standing, String> {
    let mut standing = Standing::default();
    for column in 0..picture.width() {
        match picture.upright(column, first..=last).map_err(|_| rows_beyond(picture.rows_done()))? {
            Upright::Yes => lengthen(&mut standing.upright, column),
            Upright::Unknown => lengthen(&mut standing.unknown, column),
            Upright::No => {}
        }
    }
    Ok(standing)
}

/// Adds a column behind all those before it: to the last range where it is the next one.
fn lengthen(ranges: &mut Vec<RangeInclusive<u32>>, column: u32) {
    match ranges.last_mut() {
        Some(range) if range.end() + 1 == column => *range = *range.start()..=column,
        _ => ranges.push(column..=column),
    }
}

/// What is said to a column or a row beyond the picture.
pub fn beyond(width: u32, rows: u32) -> String {
    let (column, row) = (width - 1, rows - 1);
    format!("--upright asks beyond the picture: give a column up to {column}, and rows up to {row}, first one first.")
}

/// What is said to rows beyond the picture.
pub fn rows_beyond(rows: u32) -> String {
    let row = rows - 1;
    format!("--uprights asks beyond the picture: give rows up to {row}, first one first.")
}

impl Stands {
    fn words(&self) -> String {
        let (first, more) = (self.rows.first().copied().unwrap_or_default(), self.rows.len().saturating_sub(1));
        let more = if more == 0 { String::new() } else { format!(" and {} more", grouped(more)) };
        match self.upright {
            Upright::Yes => "upright: a mark in each row".to_string(),
            Upright::No => format!("not upright: no mark in row {first}{more}"),
            Upright::Unknown => format!("unknown: the head stands on it in row {first}{more}"),
        }
    }

    /// Yes or no, and null for unknown.
    fn json(&self) -> Option<bool> {
        match self.upright {
            Upright::Yes => Some(true),
            Upright::No => Some(false),
            Upright::Unknown => None,
        }
    }
}

impl Standing {
    fn words(&self) -> String {
        if self.unknown.is_empty() {
            return listed(&self.upright, "upright");
        }
        format!("{}; {}", listed(&self.upright, "upright"), listed(&self.unknown, "unknown"))
    }
}

/// How many columns are so, and which.
fn listed(ranges: &[RangeInclusive<u32>], what: &str) -> String {
    if ranges.is_empty() {
        return format!("no column {what}");
    }
    let count: u32 = ranges.iter().map(|range| range.end() - range.start() + 1).sum();
    let name = |range: &RangeInclusive<u32>| match (range.start(), range.end()) {
        (first, last) if first == last => first.to_string(),
        (first, last) => format!("{first} to {last}"),
    };
    let ranges: Vec<String> = ranges.iter().map(name).collect();
    format!("{} {what}: {}", counted(count, "column"), ranges.join(", "))
}

/// The first and the last of each range.
fn ends(ranges: &[RangeInclusive<u32>]) -> Vec<[u32; 2]> {
    ranges.iter().map(|range| [*range.start(), *range.end()]).collect()
}

impl Located {
    fn words(self) -> String {
        match self {
            Self::Cells { row, cells, mark } => {
                let (row, step, from, to) = (grouped(row), grouped(cells.step), grouped(cells.from), grouped(cells.to));
                let cells = match cells.symbol {
                    Some(symbol) => format!("cell {from}, symbol {symbol}"),
                    None => format!("cells {from} to {to}"),
                };
                format!("row {row}, step {step}, {cells}; {}", mark.words())
            }
            Self::Margin => "in the margin, nothing is there".to_string(),
            Self::Undrawn => "below the last row, nothing is there".to_string(),
            Self::Outside => "outside the picture, nothing is there".to_string(),
        }
    }

    fn json(self, x: u32, y: u32) -> Value {
        let place = match self {
            Self::Cells { row, cells: CellRef { step, from, to, symbol }, mark } => {
                return json!({
                    "x": x, "y": y, "place": "row", "row": row, "step": step, "from": from, "to": to, "symbol": symbol,
                    "drawn": mark.name(), "share": mark.share(),
                });
            }
            Self::Margin => "margin",
            Self::Undrawn => "undrawn",
            Self::Outside => "outside",
        };
        json!({ "x": x, "y": y, "place": place })
    }
}

impl Mark {
    pub fn words(self) -> String {
        match self {
            Self::Ink(parts) => format!("ink of share {parts}/{}", index::INK_MAX),
            other => other.name().to_string(),
        }
    }

    pub fn name(self) -> &'static str {
        match self {
            Self::Paper => "paper",
            Self::Ink(_) => "ink",
            Self::Swept => "swept",
            Self::Head => "head",
        }
    }

    /// The share of ink; of the others there is none to say.
    fn share(self) -> Option<f64> {
        if let Self::Ink(parts) = self { Some(f64::from(parts) / f64::from(index::INK_MAX)) } else { None }
    }
}
