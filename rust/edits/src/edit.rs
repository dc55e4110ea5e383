//! An edit: texts of a crate's files, and what stands in their place in the wrong program. The format is that of rt's
//! must-fail edits: a line `file: ` holds for the pairs `old: ` and `new: ` after it, and any other line is a comment.

use std::collections::BTreeMap;
use std::fs;
use std::path::{Component, Path};

#[derive(Debug, PartialEq)]
pub struct Edit {
    replacements: Vec<Replacement>,
}

#[derive(Debug, PartialEq)]
struct Replacement {
    file: String,
    old: String,
    new: String,
}

impl Edit {
    pub fn parse(text: &str) -> Result<Self, String> {
        let mut file = None;
        let mut old = None;
        let mut replacements = Vec::new();
        for line in text.lines() {
            if let Some(path) = line.strip_prefix("file: ") {
                file = Some(checked_path(path)?);
            } else if let Some(text) = line.strip_prefix("old: ") {
                old = Some(text.to_string());
            } else if let Some(text) = line.strip_prefix("new:") {
                let file = file.clone().ok_or("a 'new:' line comes before any 'file:' line")?;
                let old = old.take().ok_or("a 'new:' line has no 'old:' line before it")?;
                replacements.push(Replacement { file, old, new: text.strip_prefix(' ').unwrap_or(text).to_string() });
            }
        }
        if old.is_some() {
            return Err("an 'old:' line has no 'new:' line after it".to_string());
        }
        if replacements.is_empty() {
            return Err("it has no 'old:' and 'new:' pair".to_string());
        }
        Ok(Edit { replacements })
    }

    /// Whether each old text is there exactly once, in the crate's file as the pairs before have left it.
    pub fn fits(&self, crate_folder: &Path) -> Result<(), String> {
        let mut texts: BTreeMap<&str, String> = BTreeMap::new();
        for Replacement { file, old, new } in &self.replacements {
            let text = match texts.remove(file.as_str()) {
                Some(text) => text,
                None => fs::read_to_string(crate_folder.join(file)).map_err(|error| format!("{file}: {error}"))?,
            };
            match text.matches(old.as_str()).count() {
                1 => texts.insert(file, text.replacen(old.as_str(), new, 1)),
                0 => return Err(format!("an 'old:' text is not in {file}: {old}")),
                _ => return Err(format!("an 'old:' text is in {file} more than once: {old}")),
            };
        }
        Ok(())
    }
}

/// The path of a file in a crate, as a 'file:' line names it.
fn checked_path(path: &str) -> Result<String, String> {
    let plain = Path::new(path).components().all(|part| matches!(part, Component::Normal(_)));
    if plain && ["src/", "specs/", "proofs/"].iter().any(|folder| path.starts_with(folder)) {
        Ok(path.to_string())
    } else {
        Err(format!("a 'file:' line names no file under src/, specs/ or proofs/: {path}"))
    }
}

#[cfg(test)]
mod tests {
    use super::*;

    #[test]
    fn a_file_holds_for_the_pairs_after_it_and_other_lines_are_comments() {
        let edit =
            Edit::parse("Why.\nfile: src/lib.rt\nold: a\nnew: b\nold: c \nnew:\nfile: specs/X.antt\nold: d\nnew:  e");
        let pair = |file: &str, old: &str, new: &str| Replacement {
            file: file.to_string(),
            old: old.to_string(),
            new: new.to_string(),
        };
        let replacements =
            vec![pair("src/lib.rt", "a", "b"), pair("src/lib.rt", "c ", ""), pair("specs/X.antt", "d", " e")];
        assert_eq!(edit, Ok(Edit { replacements }));
    }

    #[test]
    fn an_edit_without_a_whole_pair_is_refused() {
        for text in ["", "file: src/lib.rt\n", "file: src/lib.rt\nold: a", "file: src/lib.rt\nnew: a", "old: a\nnew: b"]
        {
            assert!(Edit::parse(text).is_err(), "{text:?}");
        }
    }

    #[test]
    fn a_file_outside_the_crate_is_refused() {
        for path in ["../other/src/lib.rt", "src/../../x", "/src/lib.rt", "must-fail/a.edit", "stdout"] {
            assert!(Edit::parse(&format!("file: {path}\nold: a\nnew: b")).is_err(), "{path}");
        }
    }
}
