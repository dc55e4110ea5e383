//! A copy of the repository outside it, in which rt checks the crates and tries their edits.

use std::collections::{BTreeMap, BTreeSet};
use std::path::{Path, PathBuf};
use std::process::{self, Command, Stdio};
use std::sync::atomic::{AtomicUsize, Ordering};
use std::{env, fs, io};

/// What a crate is proved from.
const PARTS: [&str; 3] = ["src", "specs", "proofs"];

pub struct Copy {
    top: PathBuf,
    rt: PathBuf,
}

impl Copy {
    /// Copies these crates and all that they use, with no edit.
    pub fn new(repository: &Path, rt: &Path, names: &[String]) -> io::Result<Self> {
        static MADE: AtomicUsize = AtomicUsize::new(0);
        let name = format!("edits-{}-{}", process::id(), MADE.fetch_add(1, Ordering::Relaxed));
        let copy = Copy { top: env::temp_dir().join(name), rt: rt.to_path_buf() };
        fs::create_dir_all(&copy.top)?;
        let list = fs::read_to_string(repository.join("crates.txt"))?;
        let lines = lines_with(&list, names);
        fs::write(copy.top.join("crates.txt"), lines.values().copied().collect::<Vec<_>>().join("\n") + "\n")?;
        for name in lines.keys() {
            let from = repository.join("crates").join(name);
            for part in PARTS.iter().filter(|part| from.join(part).exists()) {
                copy_folder(&from.join(part), &copy.crate_folder(name).join(part))?;
            }
        }
        Ok(copy)
    }

    pub fn crate_folder(&self, name: &str) -> PathBuf {
        self.top.join("crates").join(name)
    }

    /// Puts an edit where rt looks for those of a crate.
    pub fn add(&self, name: &str, edit: &Path) -> io::Result<()> {
        let folder = self.crate_folder(name).join("must-fail");
        fs::create_dir_all(&folder)?;
        fs::copy(edit, folder.join(edit.file_name().unwrap_or_default())).map(|_| ())
    }

    /// Runs rt at the top of the copy. What it says goes to the log, and is handed back with whether it succeeded.
    pub fn rt(&self, words: &[&str], log: &Path) -> Result<(bool, String), String> {
        let said = |error: io::Error| format!("{}: {error}", log.display());
        let out = fs::File::create(log).map_err(said)?;
        let err = out.try_clone().map_err(said)?;
        let mut command = Command::new(&self.rt);
        command.args(words).current_dir(&self.top).stdin(Stdio::null()).stdout(out).stderr(err);
        let status = command.status().map_err(|error| format!("{}: {error}", self.rt.display()))?;
        let text = fs::read(log).map_err(said)?;
        Ok((status.success(), String::from_utf8_lossy(&text).into_owned()))
    }
}

impl Drop for Copy {
    fn drop(&mut self) {
        if let Err(error) = fs::remove_dir_all(&self.top) {
            eprintln!("{} is left behind: {error}", self.top.display());
        }
    }
}

/// The lines of crates.txt for these crates and all that they use, by name: `NAME: LIBRARY ..`, where `#` starts a comment.
fn lines_with<'a>(list: &'a str, names: &[String]) -> BTreeMap<&'a str, &'a str> {
    let lines = list.lines().map(|line| line.split('#').next().unwrap_or_default().trim());
    let all: BTreeMap<&str, &str> =
        lines.filter_map(|line| Some((line.split_once(':')?.0.split_whitespace().next()?, line))).collect();
    let mut wanted: Vec<&str> = names.iter().map(String::as_str).collect();
    let mut seen = BTreeSet::new();
    while let Some(name) = wanted.pop() {
        if let (Some(line), true) = (all.get(name), seen.insert(name)) {
            wanted.extend(line.split_once(':').map_or("", |(_, used)| used).split_whitespace());
        }
    }
    all.into_iter().filter(|(name, _)| seen.contains(name)).collect()
}

fn copy_folder(from: &Path, to: &Path) -> io::Result<()> {
    fs::create_dir_all(to)?;
    for entry in fs::read_dir(from)? {
        let entry = entry?;
        let target = to.join(entry.file_name());
        if entry.file_type()?.is_dir() {
            copy_folder(&entry.path(), &target)?;
        } else {
            fs::copy(entry.path(), target)?;
        }
    }
    Ok(())
}

#[cfg(test)]
mod tests {
    use super::*;

    #[test]
    fn a_crate_comes_with_all_that_it_uses() {
        let list = "# Crates.\nlow:\nmiddle: low std\nother: low\ntop staticlib: middle # the last\n";
        let lines = |name: &str| lines_with(list, &[name.to_string()]).into_values().collect::<Vec<_>>();
        assert_eq!(lines("top"), ["low:", "middle: low std", "top staticlib: middle"]);
        assert_eq!(lines("low"), ["low:"]);
        assert!(lines("std").is_empty());
    }
}
