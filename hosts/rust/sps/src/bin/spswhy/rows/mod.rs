//! The table of messages: a row a rule, with all that may be said of its breach.
//!
//! `form` has the rules of one file, `set` those of three.

pub mod form;
pub mod set;

use crate::words::Words;
use sps::Number;

/// A rule, by the number that its breach is refused with; the sentences on what is found and
/// what would be right, with the texts that the place `{wrong}` takes in one of them; and what
/// other lines are called. A number has a row for each of its rules.
pub struct Row {
    pub number: Number,
    pub rule: Words,
    pub found: &'static [Words],
    pub wrong: &'static [Words],
    pub others: &'static [Words],
}

const fn row(
    number: Number,
    rule: Words,
    found: &'static [Words],
    others: &'static [Words],
) -> Row {
    Row { number, rule, found, wrong: &[], others }
}

/// The rows in the order of their numbers.
pub fn rows() -> Vec<&'static Row> {
    let mut rows: Vec<&Row> = form::ROWS.iter().chain(&set::ROWS).collect();
    rows.sort_by_key(|row| row.number.code());
    rows
}

/// The table for `docs/MESSAGES.md`: every number, also those that no file is refused with.
pub fn table() -> String {
    let mut text = HEAD.to_owned();
    for number in Number::ALL {
        let of_number: Vec<&Row> = rows().into_iter().filter(|row| row.number == number).collect();
        if of_number.is_empty() {
            text += &format!("| {} | {number} | {NEVER} | |\n", number.code());
        }
        for row in of_number {
            let (found, others) = (cell(row.found, "<br>"), cell(row.others, "<br>"));
            let wrong = match row.wrong {
                [] => String::new(),
                texts => format!("<br>`{{wrong}}` is one of: {}", cell(texts, ", ")),
            };
            let (code, rule) = (number.code(), row.rule.0);
            text += &format!("| {code} | {rule} | {found}{wrong} | {others} |\n");
        }
    }
    text
}

fn cell(sentences: &[Words], between: &str) -> String {
    let sentences: Vec<String> = sentences.iter().map(|words| format!("`{}`", words.0)).collect();
    sentences.join(between)
}

const NEVER: &str = "no file and no set is refused with it";

const HEAD: &str = "\
# What `spswhy` says

`spswhy --messages` prints this page from the table by which messages are made; a test holds the
two together.

A message begins with the place as `path:line:column:` and `refused with`, the number and the rule
that is breached. Then come what was found and what would be right, of the sentences below those
that apply, then the line with a mark below the column. Where the rule compares lines the others
follow, each with its own place, what it is, and a mark. Names in braces stand for what is found.
Where the lines support none of the sentences, the number's own words stand alone.

| no. | rule | what is found, and what is right | other lines |
|--:|---|---|---|
";
