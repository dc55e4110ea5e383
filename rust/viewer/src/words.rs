//! Numbers and foreign text in sentences.

use std::fmt::Display;

/// What somebody typed, short and harmless to a terminal.
pub fn quoted(text: &str) -> String {
    const SHOWN: usize = 40;
    let more = if text.chars().nth(SHOWN).is_some() { "…" } else { "" };
    format!("`{}{more}`", harmless(text.chars().take(SHOWN)))
}

/// Text in which what a terminal would obey is escaped.
pub fn harmless(text: impl IntoIterator<Item = char>) -> String {
    text.into_iter().flat_map(char::escape_debug).collect()
}

/// How many there are of what a word names, which takes an s where there is not one.
pub fn counted(number: impl Display, word: &str) -> String {
    let number = grouped(number);
    let plural = if number == "1" { "" } else { "s" };
    format!("{number} {word}{plural}")
}

/// A whole number, its digits in threes.
pub fn grouped(number: impl Display) -> String {
    let digits = number.to_string();
    let (sign, digits) = digits.strip_prefix('-').map_or(("", digits.as_str()), |digits| ("-", digits));
    let mut text = String::from(sign);
    for (at, digit) in digits.chars().enumerate() {
        if at > 0 && (digits.len() - at).is_multiple_of(3) {
            text.push(',');
        }
        text.push(digit);
    }
    text
}

#[cfg(test)]
mod tests {
    use super::{counted, grouped, quoted};

    #[test]
    fn numbers_are_grouped() {
        let shown = [0, -7, 999, 1000, -12_242, 47_176_870].map(grouped);
        assert_eq!(shown, ["0", "-7", "999", "1,000", "-12,242", "47,176,870"]);
    }

    #[test]
    fn one_is_no_plural() {
        assert_eq!([0, 1, 2, 1000].map(|number| counted(number, "row")), ["0 rows", "1 row", "2 rows", "1,000 rows"]);
    }

    #[test]
    fn text_is_cut_and_escaped() {
        assert_eq!(quoted("\u{1b}[2J"), r"`\u{1b}[2J`");
        assert_eq!(quoted(&"x".repeat(1000)).chars().count(), 43);
    }
}
