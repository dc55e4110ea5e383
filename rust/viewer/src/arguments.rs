//! What the command takes. Each mistake is answered by one sentence that says what to do.

use std::ffi::OsString;
use std::fmt::Display;
use std::ops::RangeInclusive;
use std::path::{Path, PathBuf};

use clap::{ArgMatches, error::ErrorKind};
use spacetime::{MAX_CELLS, MAX_PAGE_WIDTH, MAX_POSITION, MAX_SIDE, Pair};

use crate::answers::{self, Column, Point, Questions, Rows};
use crate::drawing::{Order, View};
use crate::failure::Failure;
use crate::machine::Machine;
use crate::numbers;
use crate::options::{self, CHAMPION, OUTPUT, STEPS};
use crate::output::Output;
use crate::sizing::{Size, WIDTH};
use crate::words::quoted;

/// What the command is asked to do.
#[derive(Clone, Debug)]
pub enum Asked {
    /// To say a text: help, or the version.
    Text(String),
    Draw(Box<Drawing>),
    Locate(Locating),
    Equal(Box<Comparing>),
}

/// A machine to draw, and questions about the picture.
#[derive(Clone, Debug)]
pub struct Drawing {
    pub machine: Machine,
    pub machine_text: String,
    pub order: Order,
    pub dark: bool,
    pub json: bool,
    /// Whether the rows are printed as text.
    pub page: bool,
    pub preview: bool,
    pub questions: Questions,
    /// Nothing where a question or the page is asked for and no file is named.
    pub output: Option<Output>,
}

/// Questions about the picture in a file.
#[derive(Clone, Debug)]
pub struct Locating {
    pub file: PathBuf,
    pub questions: Questions,
    pub json: bool,
}

/// Two pictures to compare.
#[derive(Clone, Debug)]
pub struct Comparing {
    pub pictures: [Compared; 2],
    pub json: bool,
}

/// A picture that is compared.
#[derive(Clone, Debug)]
pub enum Compared {
    File(PathBuf),
    Machine { text: String, machine: Machine, order: Order },
}

impl Compared {
    pub fn name(&self) -> String {
        match self {
            Self::File(file) => file.to_string_lossy().into_owned(),
            Self::Machine { text, .. } => text.clone(),
        }
    }
}

pub fn read<T: Into<OsString> + Clone>(words: impl IntoIterator<Item = T>) -> Result<Asked, Failure> {
    match options::command().try_get_matches_from(words) {
        Ok(matches) => match matches.subcommand() {
            Some(("equal", comparing)) => Ok(Asked::Equal(Box::new(read_comparing(comparing)?))),
            Some((_, locating)) => Ok(Asked::Locate(read_locating(locating)?)),
            None => Ok(Asked::Draw(Box::new(read_drawing(&matches)?))),
        },
        Err(error) if matches!(error.kind(), ErrorKind::DisplayHelp | ErrorKind::DisplayVersion) => {
            Ok(Asked::Text(error.to_string()))
        }
        Err(error) => Err(options::sentence(&error).into()),
    }
}

fn read_locating(matches: &ArgMatches) -> Result<Locating, String> {
    let locate = points(matches, "X,Y", "X,Y")?;
    let file = matches.get_one::<PathBuf>("FILE").expect("it is required").clone();
    Ok(Locating { file, questions: Questions { locate, ..Questions::default() }, json: matches.get_flag("json") })
}

fn read_comparing(matches: &ArgMatches) -> Result<Comparing, String> {
    let picture = |name| compared(matches.get_one::<PathBuf>(name).expect("it is required"));
    Ok(Comparing { pictures: [picture("A")?, picture("B")?], json: matches.get_flag("json") })
}

/// A word with a dot or a slash is a file: no machine has either.
fn compared(word: &Path) -> Result<Compared, String> {
    let Some(text) = word.to_str().map(str::trim).filter(|text| !text.contains(['.', '/'])) else {
        return Ok(Compared::File(word.to_path_buf()));
    };
    let view = View::Overview { steps: STEPS, cells: None };
    let size = Size { width: None, height: None, widest: WIDTH };
    let order = Order { size, input: Vec::new(), view };
    Ok(Compared::Machine { text: text.to_string(), machine: text.parse()?, order })
}

fn read_drawing(matches: &ArgMatches) -> Result<Drawing, String> {
    let machine_text = text(matches, "MACHINE").unwrap_or(CHAMPION).trim();
    let machine: Machine = machine_text.parse()?;
    let order = order(matches, &machine)?;
    let questions = Questions {
        locate: points(matches, "locate", "--locate")?,
        upright: columns(matches, order.size)?,
        uprights: rows(matches, order.size)?,
    };
    let page = matches.get_flag("page");
    let default = (questions.is_empty() && !page).then(|| Output::File(PathBuf::from(OUTPUT)));
    let output = matches.get_one::<PathBuf>("output").map(|file| output(file)).or(default);
    let json = matches.get_flag("json");
    if page && (json || output == Some(Output::Standard)) {
        return Err("--page prints on standard output: give it without --json and without --output -.".to_string());
    }
    Ok(Drawing {
        machine,
        machine_text: machine_text.to_string(),
        order,
        dark: matches.get_flag("dark"),
        json,
        page,
        preview: !matches.get_flag("no-preview"),
        questions,
        output,
    })
}

fn output(file: &Path) -> Output {
    if file.as_os_str() == "-" { Output::Standard } else { Output::File(file.to_path_buf()) }
}

fn order(matches: &ArgMatches, machine: &Machine) -> Result<Order, String> {
    let width = number(matches, "width", 1..=MAX_SIDE)?;
    let height = number(matches, "height", 1..=MAX_SIDE)?;
    let page = matches.get_flag("page");
    if page && width.is_some_and(|width| width > MAX_PAGE_WIDTH) {
        return Err(format!(
            "--page takes pictures up to {MAX_PAGE_WIDTH} pixels wide: give --width {MAX_PAGE_WIDTH} or less."
        ));
    }
    let widest = if page { MAX_PAGE_WIDTH } else { WIDTH };
    Ok(Order { size: Size { width, height, widest }, input: input(matches, machine)?, view: view(matches)? })
}

fn view(matches: &ArgMatches) -> Result<View, String> {
    let steps = number(matches, "steps", 0..=u64::MAX)?;
    let first_step = number(matches, "first-step", 0..=u64::MAX)?;
    let cell_px = number(matches, "cell", 1..=MAX_SIDE)?;
    let cells = cells(matches)?;
    if !matches.get_flag("exact") {
        if first_step.is_some() || cell_px.is_some() {
            return Err("--first-step and --cell are for exact pictures: give --exact with them.".to_string());
        }
        return Ok(View::Overview { steps: steps.unwrap_or(STEPS), cells });
    }
    if cells.is_some() {
        return Err("--cells is for overviews: give it without --exact.".to_string());
    }
    let first_step = first_step.unwrap_or(0);
    if steps.is_some_and(|steps| steps < first_step) {
        return Err("--steps is below --first-step: give one that is not.".to_string());
    }
    Ok(View::Exact { first_step, cell_px, steps })
}

/// The symbols of the word that the machine starts on.
fn input(matches: &ArgMatches, machine: &Machine) -> Result<Vec<u8>, String> {
    let Some(word) = text(matches, "input") else {
        return Ok(Vec::new());
    };
    let symbol = |digit: char| digit.to_digit(10).filter(|symbol| *symbol < machine.symbols());
    let symbols = word.chars().map(|digit| symbol(digit).and_then(|symbol| u8::try_from(symbol).ok()));
    symbols.collect::<Option<_>>().ok_or_else(|| {
        let last = machine.symbols() - 1;
        format!("--input {} will not do: give the machine's symbols, 0 to {last}, as in 1011.", quoted(word))
    })
}

/// The cells that the overview is held to.
fn cells(matches: &ArgMatches) -> Result<Option<Pair>, String> {
    let Some(text) = text(matches, "cells") else {
        return Ok(None);
    };
    let sound = |(low, high): &Pair| {
        *low >= -MAX_POSITION && low <= high && *high <= MAX_POSITION && low.abs_diff(*high) < MAX_CELLS
    };
    numbers::range(text).filter(sound).map(Some).ok_or_else(|| {
        format!(
            "--cells {} will not do: give the first and the last cell, as in -100..100, of at most 2^50 within 2^62 of the start.",
            quoted(text)
        )
    })
}

fn points(matches: &ArgMatches, name: &str, shown: &str) -> Result<Vec<Point>, String> {
    let points = lists(matches, name, shown, "two numbers, the pixel's column and line, as in 320,240")?;
    Ok(points.into_iter().map(|[x, y]| (x, y)).collect())
}

/// The columns asked for, each within the largest size that the picture can get.
fn columns(matches: &ArgMatches, size: Size) -> Result<Vec<Column>, String> {
    let wanted = "three numbers, a column and the first and last row, as in 320,0,99";
    let columns = lists(matches, "upright", "--upright", wanted)?;
    let (width, height) = size.largest();
    if columns.iter().any(|&[column, first, last]| column >= width || first > last || last >= height) {
        return Err(answers::beyond(width, height));
    }
    Ok(columns.into_iter().map(|[column, first, last]| (column, (first, last))).collect())
}

/// The rows asked for of all columns, within the largest height that the picture can get.
fn rows(matches: &ArgMatches, size: Size) -> Result<Vec<Rows>, String> {
    let (_, height) = size.largest();
    let rows = |text: &String| {
        let (first, last) = numbers::range(text).ok_or_else(|| {
            format!("--uprights {} will not do: give the first and the last row, as in 0..99.", quoted(text))
        })?;
        let row = |number: i64| u32::try_from(number).ok().filter(|row| *row < height);
        row(first).zip(row(last)).filter(|(first, last)| first <= last).ok_or_else(|| answers::rows_beyond(height))
    };
    matches.get_many::<String>("uprights").into_iter().flatten().map(rows).collect()
}

fn text<'a>(matches: &'a ArgMatches, name: &str) -> Option<&'a str> {
    matches.get_one::<String>(name).map(String::as_str)
}

fn number<T>(matches: &ArgMatches, name: &str, range: RangeInclusive<T>) -> Result<Option<T>, String>
where
    T: TryFrom<i128> + PartialOrd + Display,
{
    let Some(text) = text(matches, name) else {
        return Ok(None);
    };
    let number = numbers::read(text).filter(|number| range.contains(number));
    number.map(Some).ok_or_else(|| {
        let (low, high) = (range.start(), range.end());
        format!("--{name} {} will not do: give a whole number from {low} to {high}.", quoted(text))
    })
}

/// Each value of an option: numbers with commas between.
fn lists<const N: usize>(matches: &ArgMatches, name: &str, shown: &str, wanted: &str) -> Result<Vec<[u32; N]>, String> {
    let list = |text: &String| {
        let numbers: Option<Vec<u32>> = text.split(',').map(|part| part.parse().ok()).collect();
        let numbers = numbers.and_then(|numbers| numbers.try_into().ok());
        numbers.ok_or_else(|| format!("{shown} {} will not do: give {wanted}.", quoted(text)))
    };
    matches.get_many::<String>(name).into_iter().flatten().map(list).collect()
}
