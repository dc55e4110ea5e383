//! Counts the cases of a kind, and shows a few of those that differ, each made as small as it goes.

use std::fmt::Debug;

use crate::case::{Case, Difference, Verdict};

#[derive(Default)]
pub struct Count {
    pub compared: u64,
    pub apart: u64,
    pub differed: u64,
    pub pixels: u64,
    shown: Vec<String>,
}

/// How many differing cases of a kind are made smaller. Some end in the same least case, which is shown once.
const SHOWN: u64 = 5;

/// How many smaller cases are tried for one that differs.
const TRIES: u32 = 20_000;

impl Count {
    pub fn take(&mut self, case: &impl Case) {
        self.compared += 1;
        self.pixels += case.pixels();
        match case.compare() {
            Ok(Verdict::Equal) => {}
            Ok(Verdict::Apart) => self.apart += 1,
            Err(_) => {
                self.differed += 1;
                if self.differed <= SHOWN {
                    self.show(case);
                }
            }
        }
    }

    fn show(&mut self, case: &impl Case) {
        let least = shrunk(case);
        let text = least.to_string();
        if let Err(Difference(how)) = least.compare()
            && !self.shown.contains(&text)
        {
            println!("differs: {how}\n  again by: --case '{text}'");
            self.shown.push(text);
        }
    }

    /// Compares two values that need no case.
    pub fn equal<T: PartialEq + Debug>(&mut self, what: &str, found: &T, wanted: &T) {
        self.compared += 1;
        if found != wanted {
            self.differed += 1;
            println!("differs: {what} is {found:?}, wanted {wanted:?}");
        }
    }
}

/// The least case that still differs, by steps that each make it smaller.
fn shrunk<C: Case>(case: &C) -> C {
    let mut least = case.clone();
    let mut tries = 0..TRIES;
    let mut differs = |case: &C| tries.next().is_some() && case.compare().is_err();
    while let Some(smaller) = least.smaller().into_iter().find(&mut differs) {
        least = smaller;
    }
    least
}
