//! Where the picture is written. A file is replaced at once or not at all: what is there stays until the new one is whole.

use std::fs::{self, File, OpenOptions};
use std::io::{self, IsTerminal, Write};
use std::path::{Path, PathBuf};
use std::process;

use crate::failure::Failure;
use crate::words::quoted;

/// Where the picture goes.
#[derive(Clone, Debug, PartialEq, Eq)]
pub enum Output {
    File(PathBuf),
    /// Standard output, whose place standard error takes for what is said.
    Standard,
}

impl Output {
    /// Finds before a long run what would keep the picture from being written.
    pub fn check(&self) -> Result<(), Failure> {
        match self {
            Self::Standard if io::stdout().is_terminal() => Err(Failure::Mistake(
                "Standard output is a terminal, which shows no PNG: send it to a file or a program.".to_string(),
            )),
            Self::Standard => Ok(()),
            Self::File(file) => try_out(file).map_err(|error| unwritten(file, &error)),
        }
    }

    /// The file's name, or the one that standard output is given.
    pub fn name(&self, standard: &str) -> String {
        match self {
            Self::File(file) => file.to_string_lossy().into_owned(),
            Self::Standard => standard.to_string(),
        }
    }

    pub fn write(&self, png: &[u8]) -> Result<(), Failure> {
        match self {
            Self::Standard => say(io::stdout(), png),
            Self::File(file) => replace(file, png).map_err(|error| unwritten(file, &error)),
        }
    }
}

/// Writes to one of the program's own outputs, to its end.
pub fn say(mut out: impl Write, bytes: &[u8]) -> Result<(), Failure> {
    let said = out.write_all(bytes).and_then(|()| out.flush());
    said.map_err(|error| Failure::Unwritten(format!("The output cannot be written ({error}): send it elsewhere.")))
}

fn unwritten(file: &Path, error: &io::Error) -> Failure {
    let name = quoted(&file.to_string_lossy());
    Failure::Unwritten(format!("{name} cannot be written ({error}): name another file with --output."))
}

/// Opens the file where it is there, and the one beside it that a new one starts as; neither is changed.
fn try_out(file: &Path) -> io::Result<()> {
    match fs::metadata(file) {
        Ok(_) => drop(OpenOptions::new().append(true).open(file)?),
        Err(error) if error.kind() == io::ErrorKind::NotFound => {}
        Err(error) => return Err(error),
    }
    if is_replaced(file) {
        let beside = beside(&target(file))?;
        File::create_new(&beside)?;
        fs::remove_file(beside)?;
    }
    Ok(())
}

fn replace(file: &Path, bytes: &[u8]) -> io::Result<()> {
    if !is_replaced(file) {
        return File::create(file)?.write_all(bytes);
    }
    let target = target(file);
    let beside = beside(&target)?;
    let replaced = write_new(&beside, &target, bytes).and_then(|()| fs::rename(&beside, &target));
    if replaced.is_err() {
        // Nothing more can be done about what is left of it.
        let _ = fs::remove_file(&beside);
    }
    replaced
}

/// Writes a whole new file with the rights of the old one, if there is one, down to the disk.
fn write_new(new: &Path, old: &Path, bytes: &[u8]) -> io::Result<()> {
    let mut out = File::create_new(new)?;
    if let Ok(old) = fs::metadata(old) {
        out.set_permissions(old.permissions())?;
    }
    out.write_all(bytes)?;
    out.sync_all()
}

/// Whether another file can take its place: not that of a device or a pipe.
fn is_replaced(file: &Path) -> bool {
    fs::metadata(file).map_or(true, |found| found.is_file())
}

/// The file itself, where a link leads to it.
fn target(file: &Path) -> PathBuf {
    fs::canonicalize(file).unwrap_or_else(|_| file.to_path_buf())
}

/// A name of this process's own in the same folder.
fn beside(file: &Path) -> io::Result<PathBuf> {
    file.file_name().ok_or(io::ErrorKind::InvalidFilename)?;
    Ok(file.with_file_name(format!(".spacetime-{}", process::id())))
}
