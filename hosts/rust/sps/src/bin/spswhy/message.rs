//! A refusal in words: the place, the rule, what is found, the line with a mark, other lines.

use crate::files::Judged;
use crate::reasons::{told, Case, Other, Told};
use sps::Refusal;
use std::fmt;

/// The bytes of a line that are columns of text.
const COLUMNS: usize = 80;

/// What is said of a refusal.
pub struct Message<'a> {
    pub refusal: Refusal,
    pub file: Option<&'a Judged>,
    pub rule: String,
    pub found: Vec<String>,
    pub others: Vec<Other<'a>>,
}

impl<'a> Message<'a> {
    /// The message of a refusal of these files: one, or R, S and X. Where the lines support no
    /// sentence it has the number's own words.
    pub fn of(refusal: Refusal, files: &'a [Judged]) -> Message<'a> {
        let file = files.iter().find(|file| Some(file.kind) == refusal.file);
        let case = file.map(|judged| Case { refusal, judged, files });
        match case.and_then(|case| told(&case)) {
            Some(Told { rule, found, others }) => {
                Message { refusal, file, rule: rule.plain(), found, others }
            }
            None => {
                let rule = refusal.number.to_string();
                Message { refusal, file, rule, found: Vec::new(), others: Vec::new() }
            }
        }
    }

    /// The line of the breach, where it has a column.
    pub fn text(&self) -> Option<String> {
        let Refusal { line, column, .. } = self.refusal;
        self.file.filter(|_| column > 0).and_then(|file| shown(file, line, column))
    }
}

/// The characters of a line. CR and LF are left out where the column is not beyond them.
pub fn shown(file: &Judged, line: u64, column: u64) -> Option<String> {
    let text = file.text(line)?;
    let columns = text.iter().take(COLUMNS.max(column as usize));
    Some(columns.copied().map(char::from).collect())
}

/// A line, and below it the mark.
fn marked(f: &mut fmt::Formatter, text: &str, column: u64) -> fmt::Result {
    writeln!(f, "{text}\n{:>width$}", '^', width = column as usize)
}

impl fmt::Display for Message<'_> {
    fn fmt(&self, f: &mut fmt::Formatter) -> fmt::Result {
        let Refusal { number, line, column, .. } = self.refusal;
        if let Some(file) = self.file {
            write!(f, "{}:{line}:{column}: ", file.name())?;
        }
        writeln!(f, "refused with {}: {}", number.code(), self.rule)?;
        self.found.iter().try_for_each(|sentence| writeln!(f, "{sentence}"))?;
        if let Some(text) = self.text() {
            marked(f, &text, column)?;
        }
        self.others.iter().try_for_each(|other| write!(f, "{other}"))
    }
}

impl fmt::Display for Other<'_> {
    fn fmt(&self, f: &mut fmt::Formatter) -> fmt::Result {
        let Other { file, line, column, what } = self;
        writeln!(f, "{}:{line}:{column}: {}", file.name(), what.plain())?;
        match shown(file, *line, *column) {
            Some(text) => marked(f, &text, *column),
            None => Ok(()),
        }
    }
}
