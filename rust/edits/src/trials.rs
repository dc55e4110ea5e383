//! The edits of the repository, and how they are tried. Before them each crate is checked as it stands, so that what refuses an
//! edit is the edit alone.

use std::fs;
use std::path::{Path, PathBuf};

use crate::copy::Copy;
use crate::edit::Edit;
use crate::said;

pub struct Trials {
    pub repository: PathBuf,
    pub rt: PathBuf,
    pub jobs: usize,
}

#[derive(Debug, Default, PartialEq)]
pub struct Tally {
    pub tried: usize,
    pub wrong: usize,
}

/// The edits of a crate, by the files that hold them.
struct Group {
    name: String,
    edits: Vec<PathBuf>,
}

impl Trials {
    /// Tries the edits of these crates, or all if none is named, and says of each how it went.
    pub fn run(&self, wanted: &[String], say: &dyn Fn(String)) -> Result<Tally, String> {
        let mut groups = self.groups(wanted)?;
        let tried = groups.iter().map(|group| group.edits.len()).sum();
        let names: Vec<String> = groups.iter().map(|group| group.name.clone()).collect();
        let copy = Copy::new(&self.repository, &self.rt, &names).map_err(|error| format!("cannot copy: {error}"))?;
        self.keep_proved(&copy, &mut groups, say)?;
        self.keep_fitting(&copy, &mut groups, say);
        let refused = self.try_all(&copy, &groups, say)?;
        Ok(Tally { tried, wrong: tried - refused })
    }

    /// Checks the crates as they stand, and leaves out those that are not proved.
    fn keep_proved(&self, copy: &Copy, groups: &mut Vec<Group>, say: &dyn Fn(String)) -> Result<(), String> {
        let log = self.log("as_it_stands")?;
        let (_, text) = copy.rt(&["all", "check", "--jobs", &self.jobs.to_string()], &log)?;
        let proved = said::proved(&text);
        groups.retain(|Group { name, .. }| {
            let is_proved = proved.contains(name);
            if is_proved {
                say(format!("{name} as it stands: proved"));
            } else {
                say(format!("{name} as it stands: NOT PROVED, so no edit of it shows anything; see {}", log.display()));
            }
            is_proved
        });
        Ok(())
    }

    /// Adds the edits to the copy, and leaves out those that do not fit.
    fn keep_fitting(&self, copy: &Copy, groups: &mut Vec<Group>, say: &dyn Fn(String)) {
        for Group { name, edits } in groups.iter_mut() {
            edits.retain(|file| {
                let fitting = fits(file, &copy.crate_folder(name));
                let added = fitting.and_then(|()| copy.add(name, file).map_err(|error| error.to_string()));
                if let Err(fault) = &added {
                    say(format!("{name}/{}: BAD EDIT: {fault}", label(file)));
                }
                added.is_ok()
            });
        }
        groups.retain(|group| !group.edits.is_empty());
    }

    /// Tries the edits that the copy has, and counts those that are refused.
    fn try_all(&self, copy: &Copy, groups: &[Group], say: &dyn Fn(String)) -> Result<usize, String> {
        if groups.is_empty() {
            return Ok(0);
        }
        let log = self.log("tried")?;
        let words: Vec<&str> =
            ["must-fail"].into_iter().chain(groups.iter().map(|group| group.name.as_str())).collect();
        let (succeeded, text) = copy.rt(&words, &log)?;
        let of_edits = said::of_edits(&text);
        let mut refused = 0;
        for (name, file) in groups.iter().flat_map(|Group { name, edits }| edits.iter().map(move |file| (name, file))) {
            let label = label(file);
            let said = of_edits.get(&format!("{name}/{label}.edit"));
            let said = said.map_or_else(|| format!("NOT TRIED: see {}", log.display()), String::clone);
            fs::write(self.log(&format!("{name}/{label}"))?, format!("{said}\n")).map_err(|error| error.to_string())?;
            let judged = said::judged(&said);
            refused += usize::from(judged.is_ok());
            say(format!("{name}/{label}: {}", judged.unwrap_or_else(|fault| fault)));
        }
        if !succeeded && refused == groups.iter().map(|group| group.edits.len()).sum() {
            return Err(format!("`rt {}` failed: see {}", words.join(" "), log.display()));
        }
        Ok(refused)
    }

    /// Where to keep what rt says of one thing.
    fn log(&self, what: &str) -> Result<PathBuf, String> {
        let log = self.repository.join("target/edits").join(format!("{what}.log"));
        let folder = log.parent().unwrap_or(Path::new("."));
        fs::create_dir_all(folder).map_err(|error| format!("{}: {error}", folder.display()))?;
        Ok(log)
    }

    fn groups(&self, wanted: &[String]) -> Result<Vec<Group>, String> {
        let mut groups = Vec::new();
        for folder in entries(&self.repository.join("edits"))? {
            let name = folder.file_name().unwrap_or_default().to_string_lossy().into_owned();
            if !wanted.is_empty() && !wanted.contains(&name) {
                continue;
            }
            if !self.repository.join("crates").join(&name).is_dir() {
                return Err(format!("{} is of no crate", folder.display()));
            }
            groups.push(Group { edits: edits_in(&folder)?, name });
        }
        match wanted.iter().find(|name| groups.iter().all(|group| group.name != **name)) {
            Some(name) => Err(format!("there are no edits of {name}")),
            None => Ok(groups),
        }
    }
}

/// Whether a file is an edit of this crate.
fn fits(file: &Path, crate_folder: &Path) -> Result<(), String> {
    let text = fs::read_to_string(file).map_err(|error| error.to_string())?;
    Edit::parse(&text)?.fits(crate_folder)
}

/// The edits in a folder, which has some and nothing else.
fn edits_in(folder: &Path) -> Result<Vec<PathBuf>, String> {
    let edits = entries(folder)?;
    if edits.is_empty() {
        return Err(format!("{} has no edit", folder.display()));
    }
    match edits.iter().find(|file| file.extension().is_none_or(|ending| ending != "edit")) {
        Some(other) => Err(format!("{} is no edit", other.display())),
        None => Ok(edits),
    }
}

fn label(file: &Path) -> String {
    file.file_stem().unwrap_or_default().to_string_lossy().into_owned()
}

fn entries(folder: &Path) -> Result<Vec<PathBuf>, String> {
    let said = |error: std::io::Error| format!("{}: {error}", folder.display());
    let entries = fs::read_dir(folder).map_err(said)?;
    let mut paths = entries.map(|entry| Ok(entry?.path())).collect::<Result<Vec<_>, _>>().map_err(said)?;
    paths.sort();
    Ok(paths)
}
