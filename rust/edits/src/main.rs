//! Tries the wrong programs of the folder edits/: each changes a line or two of a crate, and the checker has to refuse it.
//! They are tried by `rt must-fail`, over what rt keeps of the crates, in a copy of the repository.

mod copy;
mod edit;
mod said;
#[cfg(test)]
mod tests;
mod trials;

use std::path::PathBuf;
use std::process::ExitCode;
use std::{env, thread};

use trials::{Tally, Trials};

const USAGE: &str = "edits REPOSITORY [CRATE..]

  tries the edits in REPOSITORY/edits, or those of the crates named; what rt said of each is in REPOSITORY/target/edits.
  RT_JOBS is how many checks run at a time, as for rt";

fn main() -> ExitCode {
    match run() {
        Ok(Tally { tried, wrong }) => {
            println!("tried={tried} wrong={wrong}");
            if wrong == 0 && tried > 0 { ExitCode::SUCCESS } else { ExitCode::FAILURE }
        }
        Err(message) => {
            eprintln!("{message}\n\n{USAGE}");
            ExitCode::from(2)
        }
    }
}

fn run() -> Result<Tally, String> {
    let mut words = env::args().skip(1);
    let repository = words.next().ok_or("which repository?")?;
    let repository = PathBuf::from(&repository).canonicalize().map_err(|error| format!("{repository}: {error}"))?;
    let trials = Trials { repository, rt: PathBuf::from("rt"), jobs: jobs()? };
    trials.run(&words.collect::<Vec<_>>(), &|line| println!("{line}"))
}

/// As many as the machine has processors, at most four, unless RT_JOBS says otherwise.
fn jobs() -> Result<usize, String> {
    match env::var("RT_JOBS") {
        Ok(number) => number.parse().ok().filter(|jobs| *jobs > 0).ok_or("RT_JOBS is a number, 1 or more".to_string()),
        Err(_) => Ok(thread::available_parallelism().map_or(1, |processors| processors.get().min(4))),
    }
}
