//! The ways in which an edit counts as wrong, and the one in which it does not, with a stand-in for rt.

use std::fs;
use std::path::PathBuf;
use std::sync::Mutex;

use crate::trials::{Tally, Trials};

const STAND_IN: &str = concat!(env!("CARGO_MANIFEST_DIR"), "/stand-in.sh");

/// A repository with one crate, `one`, in a folder that goes with it.
struct Repository(PathBuf);

impl Repository {
    fn new(test: &str, source: &str) -> Self {
        let top = std::env::temp_dir().join(format!("edits-test-{}-{test}", std::process::id()));
        for folder in ["crates/one/src", "edits/one"] {
            fs::create_dir_all(top.join(folder)).expect("a folder");
        }
        fs::write(top.join("crates.txt"), "one:\n").expect("crates.txt");
        fs::write(top.join("crates/one/src/lib.rt"), source).expect("the crate");
        Repository(top)
    }

    fn edit(self, label: &str, old: &str, new: &str) -> Self {
        let text = format!("file: src/lib.rt\nold: {old}\nnew: {new}\n");
        fs::write(self.0.join(format!("edits/one/{label}.edit")), text).expect("an edit");
        self
    }

    fn trials(&self) -> Trials {
        Trials { repository: self.0.clone(), rt: PathBuf::from(STAND_IN), jobs: 2 }
    }

    /// The tally, and what was said of the edits.
    fn tried(&self) -> (Tally, Vec<String>) {
        let lines = Mutex::new(Vec::new());
        let tally = self.trials().run(&[], &|line| lines.lock().expect("the lines").push(line)).expect("a tally");
        let lines = lines.into_inner().expect("the lines");
        (tally, lines.into_iter().filter(|line| line.starts_with("one/")).collect())
    }
}

impl Drop for Repository {
    fn drop(&mut self) {
        fs::remove_dir_all(&self.0).expect("the folder goes");
    }
}

#[test]
fn edits_that_the_prover_refuses_are_right_one_after_the_other() {
    let repository = Repository::new("refused", "true and true\n").edit("a", "true and", "false and").edit(
        "b",
        "and true",
        "and false",
    );
    let (tally, said) = repository.tried();
    assert_eq!(tally, Tally { tried: 2, wrong: 0 }, "{said:?}");
    assert!(said.iter().all(|line| line.ends_with(": refused, as it must be")), "{said:?}");
    let log = fs::read_to_string(repository.0.join("target/edits/one/a.log")).expect("a log");
    assert_eq!(log, "refused, as it must be\n");
    assert_eq!(fs::read_to_string(repository.0.join("crates/one/src/lib.rt")).expect("the crate"), "true and true\n");
}

#[test]
fn an_accepted_edit_is_wrong_and_the_next_one_does_not_see_it() {
    let repository = Repository::new("accepted", "true\n").edit("a", "true", "truth").edit("b", "true", "false");
    let (tally, said) = repository.tried();
    assert_eq!(tally, Tally { tried: 2, wrong: 1 }, "{said:?}");
    assert!(said[0].starts_with("one/a: NOT REFUSED"), "{said:?}");
}

#[test]
fn an_edit_whose_text_is_missing_or_there_twice_is_wrong() {
    let repository = Repository::new("text", "true or true\n").edit("a", "truth", "false").edit("b", "true", "false");
    let (tally, said) = repository.tried();
    assert_eq!(tally, Tally { tried: 2, wrong: 2 }, "{said:?}");
    assert!(said[0].starts_with("one/a: BAD EDIT: an 'old:' text is not in src/lib.rt"), "{said:?}");
    assert!(said[1].starts_with("one/b: BAD EDIT: an 'old:' text is in src/lib.rt more than once"), "{said:?}");
}

#[test]
fn an_edit_that_does_not_reach_the_prover_is_wrong() {
    let repository = Repository::new("syntax", "true\n").edit("a", "true", "syntax false");
    let (tally, said) = repository.tried();
    assert_eq!(tally, Tally { tried: 1, wrong: 1 }, "{said:?}");
    assert!(said[0].starts_with("one/a: BAD EDIT: it did not reach the prover"), "{said:?}");
}

#[test]
fn every_edit_of_a_crate_that_is_not_proved_is_wrong() {
    let repository =
        Repository::new("base", "true, false\n").edit("a", "true", "false").edit("b", "false", "false, false");
    let (tally, said) = repository.tried();
    assert_eq!(tally, Tally { tried: 2, wrong: 2 }, "{said:?}");
    assert!(said.is_empty(), "{said:?}");
}

#[test]
fn a_folder_of_no_crate_one_of_no_edit_and_a_file_of_another_kind_end_the_run() {
    let repository = Repository::new("folder", "true\n").edit("a", "true", "false");
    let ended = || repository.trials().run(&[], &|_| ()).is_err();
    let folder = repository.0.join("edits/two");
    assert!(!ended());
    fs::create_dir(&folder).expect("a folder");
    assert!(ended());
    fs::copy(repository.0.join("edits/one/a.edit"), folder.join("a.edit")).expect("an edit");
    assert!(ended());
    fs::remove_dir_all(&folder).expect("the folder goes");
    fs::write(repository.0.join("edits/one/b.edits"), "").expect("a file");
    assert!(ended());
}
