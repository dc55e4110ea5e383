//! Writes the list of the Rust original's answers that crates/replay reads: every input is one that the rules take, every
//! answer is the original's. The same seed makes the same list.

mod colours;
mod list;
mod pictures;
mod tapes;

use std::path::Path;
use std::process::ExitCode;
use std::{env, fs};

use list::List;
use random::Rng;

const USAGE: &str = "maker [--check] FILE

  writes the list into FILE; with --check, compares it with what FILE holds";

const SEED: u64 = 1_936_061_029;

fn main() -> ExitCode {
    let words: Vec<String> = env::args().skip(1).collect();
    let (check, file) = match words.as_slice() {
        [file] => (false, file),
        [option, file] if option == "--check" => (true, file),
        _ => {
            eprintln!("{USAGE}");
            return ExitCode::from(2);
        }
    };
    match run(check, Path::new(file)) {
        Ok(()) => ExitCode::SUCCESS,
        Err(message) => {
            eprintln!("{message}");
            ExitCode::FAILURE
        }
    }
}

fn run(check: bool, file: &Path) -> Result<(), String> {
    let list = made();
    let refused = |error: std::io::Error| format!("{}: {error}", file.display());
    if check {
        if fs::read(file).map_err(refused)? != list.bytes() {
            return Err(format!("{} is not the list that seed {SEED} makes", file.display()));
        }
    } else {
        fs::write(file, list.bytes()).map_err(refused)?;
    }
    println!("seed={SEED} cases={} bytes={}", list.cases(), list.bytes().len());
    Ok(())
}

fn made() -> List {
    let mut list = List::default();
    tapes::add(&mut list, &mut Rng::of_kind(SEED, "tapes"));
    colours::add(&mut list, &mut Rng::of_kind(SEED, "colours"));
    pictures::add(&mut list, &mut Rng::of_kind(SEED, "pictures"));
    list
}
