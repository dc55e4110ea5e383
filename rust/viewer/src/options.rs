//! The options and their help, in the words of clap, and what clap says in the words of the command.

use std::path::PathBuf;

use clap::error::{ContextKind, ContextValue, ErrorKind};
use clap::{Arg, ArgAction, Command, value_parser};
use spacetime::MAX_SIDE;

use crate::sizing::{HEIGHT, WIDTH};
use crate::words::{grouped, quoted};

/// The five-state busy beaver champion.
pub const CHAMPION: &str = "1RB1LC_1RC1RB_1RD0LE_1LA1LD_1RZ0LA";

/// More than the champion takes.
pub const STEPS: u64 = 50_000_000;
pub const OUTPUT: &str = "spacetime.png";

/// What follows the options in the help.
const MORE: &str = "\
A machine has a row for each state, A first, with _ between. A row has three
characters for each symbol, 0 first: what to write, L or R for the move, and the
next state; or --- where nothing is defined. Z or H is the halt. The machine
starts in state A, on a blank tape or at the first symbol of --input.

    1RB1LB_1LA1RZ    two states, two symbols: on 0 in state A, it writes 1,
                     moves right and goes to state B; on 1 in state B it halts

Numbers may have commas, as 50,000,000, and be powers, as 2^40.

Examples:
  spacetime
  spacetime 1RB1LB_1LA1RZ
  spacetime 1RB2LA1RA1RA_1LB1LA3RB1RZ --dark --output four.png
  spacetime locate four.png 320,240
  spacetime equal four.png 1RB2LA1RA1RA_1LB1LA3RB1RZ
  spacetime --exact --first-step 1,000 --cell 6
  spacetime --cells -100..100 --steps 2^20
  spacetime 1RB0RB_1LA1RB --input 1011 --steps 99
  spacetime --locate 320,240 --locate 0,0 --upright 610,100,479 --json
  spacetime --uprights 100..479
  spacetime 1RB1LB_1LA1RZ --exact --cell 1 --page
  spacetime --output - > champion.png

The status is 0, or 1 where the answer to a question is no or unknown, 2 for a
mistake and 3 where something could not be written or built.";

pub fn command() -> Command {
    Command::new("spacetime")
        .version(env!("CARGO_PKG_VERSION"))
        .about("Draws the space-time picture of a Turing machine")
        .after_help(MORE)
        .args_conflicts_with_subcommands(true)
        .disable_help_subcommand(true)
        .subcommand(locate())
        .subcommand(equal())
        .arg(Arg::new("MACHINE").help("The machine in the standard format [default: the champion]"))
        .args(pictures())
        .args(outputs())
        .args([
            questions("locate", "X,Y", "Say what a pixel shows; all three may be given again"),
            questions("upright", "X,A,B", "Say if column X has a mark in each of the rows A to B"),
            questions("uprights", "A..B", "List the columns that have, by their ranges"),
            json(),
        ])
}

/// The options that say what is drawn.
fn pictures() -> [Arg; 9] {
    let side = |longest| format!("1 to {MAX_SIDE} [default: what is used, up to {longest}]");
    [
        option("steps", "STEPS", &format!("Stop after so many [overview: {}]", grouped(STEPS))),
        option("input", "WORD", "The symbols on the tape at first, from the head on"),
        option("cells", "A..B", "Show these cells, in place of all that are visited"),
        flag("exact", "Draw each step as a row, in place of the whole run"),
        option("first-step", "STEP", "The step of the first row, with --exact [default: 0]"),
        option("cell", "PIXELS", "The size of a cell, with --exact [default: what fits]"),
        option("width", "PIXELS", &side(WIDTH)),
        option("height", "PIXELS", &side(HEIGHT)),
        flag("dark", "Draw light ink on dark paper"),
    ]
}

/// The options that say where the picture goes.
fn outputs() -> [Arg; 3] {
    let help = format!("The PNG file; - is standard output [{OUTPUT}]");
    [
        // A word with a hyphen is an option that follows and not a name, but for - alone and what is given with =.
        option("output", "FILE", &help).short('o').value_parser(value_parser!(PathBuf)).allow_hyphen_values(false),
        flag("page", "Print the rows as text, 59 pixels wide at most"),
        flag("no-preview", "Show no preview where the output is a terminal"),
    ]
}

/// The command that asks a file.
fn locate() -> Command {
    Command::new("locate")
        .about("Say what pixels of a file show, from what the file says of itself")
        .arg(Arg::new("FILE").help("A PNG that spacetime wrote").required(true).value_parser(value_parser!(PathBuf)))
        .arg(Arg::new("X,Y").help("The pixels' columns and lines").required(true).num_args(1..))
        .arg(json())
}

/// The command that compares two pictures.
fn equal() -> Command {
    let picture = |name: &'static str, help: &'static str| {
        Arg::new(name).help(help).required(true).value_parser(value_parser!(PathBuf))
    };
    Command::new("equal")
        .about("Say if two pictures are equal, and in what they differ first")
        .arg(picture("A", "A PNG that spacetime wrote, or a machine; a name with no . or / is a machine"))
        .arg(picture("B", "The picture to compare it with"))
        .arg(json())
}

fn json() -> Arg {
    flag("json", "Say it as one JSON object")
}

fn flag(name: &'static str, help: &str) -> Arg {
    Arg::new(name).long(name).help(help.to_string()).action(ArgAction::SetTrue)
}

fn option(name: &'static str, value: &'static str, help: &str) -> Arg {
    Arg::new(name).long(name).value_name(value).help(help.to_string()).allow_hyphen_values(true)
}

/// An option that may be given again.
fn questions(name: &'static str, value: &'static str, help: &str) -> Arg {
    option(name, value, help).action(ArgAction::Append)
}

/// One sentence for what clap says in several lines.
pub fn sentence(error: &clap::Error) -> String {
    let argument = argument(error);
    let option = quoted(argument.split(' ').next().unwrap_or_default());
    match error.kind() {
        ErrorKind::InvalidUtf8 => "An argument is not UTF-8: give plain letters and digits.".to_string(),
        ErrorKind::ArgumentConflict => format!("{option} is given twice, or does not go with the rest: give it once."),
        ErrorKind::MissingRequiredArgument if missing(error).contains(&"<B>".to_string()) => {
            "`equal` wants two files or machines: give them as in `spacetime equal one.png two.png`.".to_string()
        }
        ErrorKind::MissingRequiredArgument => {
            "`locate` wants a file and pixels: give them as in `spacetime locate spacetime.png 320,240`.".to_string()
        }
        ErrorKind::UnknownArgument if argument.starts_with("---") => {
            format!("{} is no option: give a machine that begins with - after `--`.", quoted(&argument))
        }
        ErrorKind::UnknownArgument if !argument.starts_with('-') => {
            format!("{} is one argument too many: give one machine, and options.", quoted(&argument))
        }
        ErrorKind::UnknownArgument => format!("{} is no option: `spacetime --help` lists them.", quoted(&argument)),
        ErrorKind::InvalidValue => format!("{option} has no value: give one after it."),
        ErrorKind::TooManyValues => format!("{option} takes no value: give it alone."),
        _ => "The arguments cannot be read: `spacetime --help` says how.".to_string(),
    }
}

/// The arguments that clap misses.
fn missing(error: &clap::Error) -> Vec<String> {
    let found = error.context().find(|(kind, _)| *kind == ContextKind::InvalidArg);
    found
        .and_then(|(_, value)| if let ContextValue::Strings(names) = value { Some(names.clone()) } else { None })
        .unwrap_or_default()
}

/// The argument that clap finds wrong.
fn argument(error: &clap::Error) -> String {
    let found = error.context().find(|(kind, _)| *kind == ContextKind::InvalidArg);
    found
        .and_then(|(_, value)| if let ContextValue::String(text) = value { Some(text.clone()) } else { None })
        .unwrap_or_default()
}
