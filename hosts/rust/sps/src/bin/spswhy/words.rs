//! Sentences with places for what is found, and how numbers and lists stand in them.

use std::fmt::{Display, Write};

/// A sentence. Each name in braces is a place for what is found.
#[derive(Clone, Copy, Debug, PartialEq, Eq)]
pub struct Words(pub &'static str);

impl Words {
    /// The sentence with these in its places, from the left.
    pub fn with(self, found: &[&dyn Display]) -> String {
        let mut parts = self.0.split('{');
        let mut text = parts.next().unwrap_or_default().to_owned();
        let mut found = found.iter();
        for part in parts {
            if let Some(value) = found.next() {
                let _ = write!(text, "{value}");
            }
            text.push_str(part.split_once('}').map_or("", |(_, rest)| rest));
        }
        text
    }

    /// The sentence that has no places.
    pub fn plain(self) -> String {
        self.with(&[])
    }
}

/// A number with a comma before each three digits.
pub fn grouped(number: u64) -> String {
    let digits = number.to_string();
    let mut text = String::new();
    for (at, digit) in digits.chars().enumerate() {
        if at > 0 && (digits.len() - at).is_multiple_of(3) {
            text.push(',');
        }
        text.push(digit);
    }
    text
}

/// So many things, by the name of one.
pub fn counted(number: u64, one: &str) -> String {
    format!("{} {}", grouped(number), plural(number, one))
}

/// The name of so many things.
pub fn plural(number: u64, one: &str) -> String {
    let more = if number == 1 { "" } else { "s" };
    format!("{one}{more}")
}

/// Things one after another, with "and" before the last.
pub fn list(things: &[String]) -> String {
    match things {
        [] => String::new(),
        [one] => one.clone(),
        [first @ .., last] => format!("{} and {last}", first.join(", ")),
    }
}

/// Columns of a line in quotes.
pub fn quoted(columns: &[u8]) -> String {
    format!("\"{}\"", String::from_utf8_lossy(columns))
}

/// A name or a tape without the blanks at its end.
pub fn name(columns: &[u8]) -> String {
    String::from_utf8_lossy(columns.trim_ascii_end()).into_owned()
}

/// The same, in quotes where blanks stand inside.
pub fn clear(columns: &[u8]) -> String {
    let name = name(columns);
    if name.contains(' ') {
        return quoted(name.as_bytes());
    }
    name
}

#[cfg(test)]
mod tests {
    use super::*;

    #[test]
    fn places() {
        let words = Words("{one} and {two}, then {one}");
        assert_eq!(words.with(&[&1, &"{x}", &3]), "1 and {x}, then 3");
        assert_eq!(words.with(&[&1]), "1 and , then ");
        assert_eq!(Words("a } b { c").with(&[&1]), "a } b 1");
    }

    #[test]
    fn numbers_and_lists() {
        let numbers = [0, 999, 1_000, 1_944, 1_099_511_627_776];
        let expected = ["0", "999", "1,000", "1,944", "1,099,511,627,776"];
        assert_eq!(numbers.map(grouped), expected);
        assert_eq!(
            [0, 1, 2].map(|number| counted(number, "line")),
            ["0 lines", "1 line", "2 lines"]
        );
        let things = ["a", "b", "c"].map(str::to_owned);
        assert_eq!([1, 2, 3].map(|to| list(&things[..to])), ["a", "a and b", "a, b and c"]);
    }
}
