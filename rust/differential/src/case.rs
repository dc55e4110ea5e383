//! A case: one input of one call, or of a list of calls. Its text, `call name=value name=value ..`, runs it again; that of
//! a list has such a text for each part, with a semicolon before it.

use std::fmt::{Debug, Display};
use std::str::FromStr;

pub trait Case: Clone + Display {
    /// Makes the call, and holds what it answered and left behind to its judges.
    fn compare(&self) -> Result<Verdict, Difference>;

    /// Cases a little smaller than this one, to try where it differs.
    fn smaller(&self) -> Vec<Self>;

    /// How many pixels are compared with the original.
    fn pixels(&self) -> u64 {
        0
    }
}

#[derive(Copy, Clone, Debug, PartialEq, Eq)]
pub enum Verdict {
    Equal,
    /// The library is right by the rules where the original is not, as docs/DIFFERENCES.md lists it.
    Apart,
}

/// Who is not as wanted, and how.
#[derive(Clone, Debug, PartialEq, Eq)]
pub struct Difference(pub String);

/// Holds `found` to `wanted`.
pub fn hold<T: PartialEq + Debug>(who: &str, found: &T, wanted: &T) -> Result<(), Difference> {
    if found == wanted {
        return Ok(());
    }
    Err(Difference(format!("{who} has {found:?}, wanted {wanted:?}")))
}

/// Holds a list that may be long to another, and says where they first differ.
pub fn hold_list<T: PartialEq + Debug>(who: &str, found: &[T], wanted: &[T]) -> Result<(), Difference> {
    if found == wanted {
        return Ok(());
    }
    hold(&format!("{who}, length"), &found.len(), &wanted.len())?;
    let place = found.iter().zip(wanted).position(|(found, wanted)| found != wanted).unwrap_or(0);
    let around = place..found.len().min(place + SHOWN);
    hold(&format!("{who} from place {place} on"), &&found[around.clone()], &&wanted[around])
}

/// How much of a long list is shown.
const SHOWN: usize = 16;

/// The values of a case's text.
pub struct Fields<'a> {
    pub call: &'a str,
    values: Vec<(&'a str, &'a str)>,
    pub parts: Vec<Fields<'a>>,
}

impl<'a> Fields<'a> {
    pub fn read(text: &'a str) -> Result<Self, String> {
        let mut parts = text.split(';');
        let mut words = parts.next().unwrap_or_default().split_whitespace();
        let call = words.next().ok_or("a case begins with the call's name")?;
        let values = words
            .map(|word| word.split_once('=').ok_or_else(|| format!("{word}: not a name=value")))
            .collect::<Result<_, _>>()?;
        Ok(Self { call, values, parts: parts.map(Self::read).collect::<Result<_, _>>()? })
    }

    pub fn number<T: FromStr>(&self, name: &str) -> Result<T, String> {
        parsed(name, self.text(name)?)
    }

    pub fn numbers<T: FromStr>(&self, name: &str) -> Result<Vec<T>, String> {
        let text = self.text(name)?;
        text.split(',').filter(|item| !item.is_empty()).map(|item| parsed(name, item)).collect()
    }

    fn text(&self, name: &str) -> Result<&'a str, String> {
        let found = self.values.iter().find(|(key, _)| *key == name);
        found.map(|(_, value)| *value).ok_or_else(|| format!("{} needs {name}", self.call))
    }
}

fn parsed<T: FromStr>(name: &str, text: &str) -> Result<T, String> {
    text.parse().map_err(|_| format!("{name}: {text} is not such a number"))
}

/// Numbers as a case's text has them.
pub fn joined<T: Display>(numbers: &[T]) -> String {
    numbers.iter().map(T::to_string).collect::<Vec<_>>().join(",")
}
