//! Holds what is declared of the C interface to what the crates export, name by name and type by type: the header, all
//! of it, and what the Rust beside the proofs declares of the archives.

mod prototypes;
#[cfg(test)]
mod tests;

use std::path::{Path, PathBuf};
use std::process::ExitCode;
use std::{env, fs};

use prototypes::{Prototypes, exported, in_header, in_rust, number_after, with_length, without_lengths};

fn main() -> ExitCode {
    match compare(Path::new(&env::args().nth(1).unwrap_or_else(|| ".".to_string()))) {
        Ok(true) => ExitCode::SUCCESS,
        Ok(false) => ExitCode::FAILURE,
        Err(message) => {
            eprintln!("{message}\n\ninterface [REPOSITORY]");
            ExitCode::from(2)
        }
    }
}

fn compare(repository: &Path) -> Result<bool, String> {
    let text = |place: &str| read(&repository.join(place));
    let words = words_of_record(|place| text(place))?;
    let source = exported(&sources(&repository.join("crates/spacetime_c/src"))?);
    let spacetime = with_length(source, "RECORD_WORDS", words.number);
    let probe = exported(&sources(&repository.join("crates/probe/src"))?);
    let header = with_length(in_header(&text(HEADER)?), "SPACETIME_RECORD_WORDS", words.number);
    let rust = in_rust(&text(RUST)?);

    let every = without_lengths(&spacetime.clone().into_iter().chain(probe).collect());
    let wrong = words.wrong
        + held(HEADER, &header, &spacetime)
        + held(RUST, &rust, &every)
        + missing(HEADER, &header, &spacetime);
    println!("declared={} wrong={wrong}", header.len() + rust.len() + 1);
    Ok(wrong == 0)
}

const HEADER: &str = "include/spacetime.h";
const RUST: &str = "rust/archives/src/lib.rs";

/// How many words a record has in the source, and whether another place says otherwise: 1 or 0.
struct Words {
    number: u64,
    wrong: usize,
}

/// Reads how many words a record has where it is said, and says where it is not the source's number.
fn words_of_record(text: impl Fn(&str) -> Result<String, String>) -> Result<Words, String> {
    let said =
        |place: &str, mark: &str| number_after(&text(place)?, mark).ok_or_else(|| format!("{place}: no `{mark}`"));
    let constant = "pub const RECORD_WORDS: usize = ";
    let number = said("crates/words/src/lib.rt", constant)?;
    let others = [(HEADER, said(HEADER, "#define SPACETIME_RECORD_WORDS ")?), (RUST, said(RUST, constant)?)];
    let unlike: Vec<_> = others.into_iter().filter(|(_, other)| *other != number).collect();
    for (place, other) in &unlike {
        println!("{place}: a record has {other} words, in the source {number}");
    }
    Ok(Words { number, wrong: usize::from(!unlike.is_empty()) })
}

/// Says which declarations the source does not have like this, and counts them.
fn held(place: &str, declared: &Prototypes, source: &Prototypes) -> usize {
    let unlike = declared.iter().filter(|(name, prototype)| source.get(*name) != Some(prototype));
    unlike
        .map(|(name, prototype)| match source.get(name) {
            Some(wanted) => println!("{place}: {name} is {prototype}, in the source {wanted}"),
            None => println!("{place}: {name} is not exported"),
        })
        .count()
}

/// Says which exported functions are not declared, and counts them.
fn missing(place: &str, declared: &Prototypes, source: &Prototypes) -> usize {
    let undeclared = source.keys().filter(|name| !declared.contains_key(*name));
    undeclared.map(|name| println!("{place}: {name} is not declared")).count()
}

fn sources(folder: &Path) -> Result<String, String> {
    let entries = fs::read_dir(folder).map_err(|error| format!("{}: {error}", folder.display()))?;
    let mut files: Vec<PathBuf> = entries.filter_map(|entry| Some(entry.ok()?.path())).collect();
    files.sort();
    files.iter().filter(|file| file.extension().is_some_and(|ending| ending == "rt")).map(|file| read(file)).collect()
}

fn read(file: &Path) -> Result<String, String> {
    fs::read_to_string(file).map_err(|error| format!("{}: {error}", file.display()))
}
