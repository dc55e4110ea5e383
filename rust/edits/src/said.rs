//! What rt says of crates and of edits.

use std::collections::{BTreeMap, BTreeSet};

/// The crates that are proved, by what `rt all check` says at its end.
pub fn proved(text: &str) -> BTreeSet<String> {
    let (_, summary) = text.rsplit_once("== summary\n").unwrap_or_default();
    summary.lines().filter_map(|line| line.strip_suffix(": ok")).map(str::to_string).collect()
}

/// What `rt must-fail` says of each edit, by crate and file: the rest of the line that names it, and the lines after it up to
/// rt's next.
pub fn of_edits(text: &str) -> BTreeMap<String, String> {
    let mut found = BTreeMap::new();
    let mut last = None;
    for line in text.lines() {
        if line.starts_with("rt: ") {
            last = line.strip_prefix("rt: must-fail ").and_then(|line| line.split_once(": ")).map(|(edit, said)| {
                found.insert(edit.to_string(), said.to_string());
                edit.to_string()
            });
        } else if let Some(said) = last.as_ref().and_then(|edit| found.get_mut(edit)) {
            *said += "\n";
            *said += line;
        }
    }
    found
}

/// Whether what was said of an edit counts as a refusal. One for a limit of the prover, or for a name that is gone, says nothing of
/// the claim that the edit breaks.
pub fn judged(said: &str) -> Result<String, String> {
    match said.strip_prefix("refused, as it must be") {
        Some(place) if place.is_empty() || place.starts_with(": ") => Ok(said.to_string()),
        Some(_) => Err(format!("BAD EDIT: {said}")),
        None => Err(said.to_string()),
    }
}

#[cfg(test)]
mod tests {
    use super::*;

    #[test]
    fn a_crate_is_proved_by_its_line_in_the_summary_alone() {
        let text = "== one\none: ok\n== summary\ntwo: ok\nthree: failed (1)\nfour: not run, since three failed\n1 of 3 crates ok\n";
        assert_eq!(proved(text), BTreeSet::from(["two".to_string()]));
        assert!(proved("one: ok\n").is_empty());
    }

    #[test]
    fn an_edit_has_the_lines_up_to_the_next() {
        let text = "rt: one: begins with\nrt: must-fail one/a.edit: BAD EDIT: it did not reach the prover:\nsrc/lib.rt:1:1: error: no\nrt: note\nmore\n\
                    rt: must-fail one/b.edit: refused, as it must be: ./proofs/Laws.antt:3:5: error: `law`: no\n";
        let edits = of_edits(text);
        assert_eq!(edits["one/a.edit"], "BAD EDIT: it did not reach the prover:\nsrc/lib.rt:1:1: error: no");
        assert_eq!(edits["one/b.edit"], "refused, as it must be: ./proofs/Laws.antt:3:5: error: `law`: no");
        assert_eq!(edits.len(), 2);
    }

    #[test]
    fn a_refusal_that_says_nothing_of_a_claim_is_none() {
        assert!(judged("refused, as it must be").is_ok());
        assert!(judged("refused, as it must be: ./src/lib.rt:7:1: error: it is not proved").is_ok());
        for said in [
            "refused, as it must be (only by a limit of the prover, which gave no verdict): ./src/lib.rt:7:1: error",
            "refused, as it must be (only because a proof file names what the edit took away): ./proofs/f/Answers.antt:3:5: error",
            "NOT REFUSED: the crate is still proved with this edit",
            "NOT TRIED: its check was killed",
            "BAD EDIT: the prover cannot read the edited text",
        ] {
            assert!(judged(said).is_err(), "{said}");
        }
    }

    #[test]
    fn an_exit_status_alone_is_no_verdict() {
        assert!(proved("").is_empty());
        assert!(of_edits("").is_empty());
        assert!(judged("").is_err());
        assert!(of_edits("rt: ok; must-fail edits: 1 refused, 0 bad\n").is_empty());
    }

    #[test]
    fn a_refusal_has_the_place_of_its_first_fault() {
        let fault = |line: &str| {
            let text = format!("rt: must-fail one/a.edit: refused, as it must be: {line}\nrt: more\n");
            judged(&of_edits(&text)["one/a.edit"]).expect("a refusal")
        };
        assert!(fault("./proofs/Laws.antt:3:5: error: `law`: no: error: in it").contains(": ./proofs/Laws.antt:3:5: "));
        assert!(fault("note: ./src/lib.rt:7:1: it is not proved that it holds").contains(": ./src/lib.rt:7:1: "));
    }
}
