//! A message taken apart, and the table of messages in the docs.

use crate::NAMES;
use small_sets::Set;
use std::fs;
use std::path::{Path, PathBuf};

/// What is said of a refusal. The last lines name files that look like the other medium.
pub struct Message {
    pub number: u8,
    pub rule: String,
    pub found: Vec<String>,
    pub text: Option<String>,
    pub others: Vec<Other>,
}

/// Another line, its place and what it is.
pub struct Other {
    pub path: String,
    pub line: u32,
    pub column: u8,
    pub what: String,
    pub text: String,
}

/// A mark below a column.
fn mark(column: u8) -> String {
    format!("{:>width$}", '^', width = usize::from(column))
}

/// `path:line:column: words`.
fn place(text: &str) -> Option<(&str, u32, u8, &str)> {
    let (before, words) = text.split_once(": ")?;
    let (path_and_line, column) = before.rsplit_once(':')?;
    let (path, line) = path_and_line.rsplit_once(':')?;
    Some((path, line.parse().ok()?, column.parse().ok()?, words))
}

impl Message {
    /// Takes apart what is said of a set, and holds its shape.
    pub fn read(said: &str) -> (Message, String, u32, u8) {
        let lines: Vec<&str> =
            said.lines().filter(|line| !line.contains(" looks like a ")).collect();
        let (path, line, column, words) = place(lines[0]).expect(said);
        let words = words.strip_prefix("refused with ").expect(said);
        let (number, rule) = words.split_once(": ").expect(said);
        let is_other = |text: &&str| {
            place(text).is_some_and(|of| NAMES.iter().any(|name| of.0.ends_with(name)))
        };
        let (end, text) = match column {
            0 => (lines[1..].iter().position(is_other).map_or(lines.len(), |at| at + 1), None),
            _ => {
                let at = lines.iter().position(|line| **line == *mark(column)).expect(said);
                (at + 1, Some(lines[at - 1].to_owned()))
            }
        };
        let found = &lines[1..if column == 0 { end } else { end - 2 }];
        let message = Message {
            number: number.parse().expect(said),
            rule: rule.to_owned(),
            found: found.iter().map(|line| line.to_string()).collect(),
            text,
            others: lines[end..].chunks(3).map(|three| other(three, said)).collect(),
        };
        (message, path.to_owned(), line, column)
    }
}

fn other(lines: &[&str], said: &str) -> Other {
    let [first, text, below] = lines else { panic!("{said}") };
    let (path, line, column, what) = place(first).expect(said);
    assert_eq!(**below, *mark(column), "{said}");
    let [path, what, text] = [path, what, text].map(str::to_owned);
    Other { path, line, column, what, text }
}

/// A row of the table: what is said of a rule. Of a sentence with the place `{wrong}` there is one
/// for each text that this place takes.
pub struct Row {
    pub number: u8,
    pub rule: String,
    pub found: Vec<String>,
    pub others: Vec<String>,
}

/// `docs/MESSAGES.md`.
pub fn page() -> PathBuf {
    Path::new(env!("CARGO_MANIFEST_DIR")).join("../../../docs/MESSAGES.md")
}

impl Row {
    /// The rows of the page.
    pub fn all() -> Vec<Row> {
        let page = fs::read_to_string(page()).expect("the table of messages");
        page.lines().filter_map(Row::of).collect()
    }

    fn of(line: &str) -> Option<Row> {
        let cells: Vec<&str> = line.strip_prefix("| ")?.split(" |").map(str::trim).collect();
        let [number, rule, found, others, ""] = cells[..] else { return None };
        let (found, wrong) = found.split_once("<br>`{wrong}` is one of: ").unwrap_or((found, ""));
        let plain = |sentence: &str| sentence.trim_matches('`').to_owned();
        let sentences = |cell: &str| -> Vec<String> {
            cell.split("<br>").filter(|of| !of.is_empty()).map(plain).collect()
        };
        let wrong: Vec<String> = wrong.split("`, `").map(plain).collect();
        let with = |sentence: String| match sentence.contains("{wrong}") {
            true => wrong.iter().map(|text| sentence.replace("{wrong}", text)).collect(),
            false => vec![sentence],
        };
        let found = sentences(found).into_iter().flat_map(with).collect();
        let (number, rule) = (number.parse().ok()?, rule.to_owned());
        Some(Row { number, rule, found, others: sentences(others) })
    }

    /// The row of a message's rule.
    pub fn of_message<'a>(rows: &'a [Row], message: &Message) -> &'a Row {
        let is_it = |row: &&Row| row.number == message.number && row.rule == message.rule;
        rows.iter().find(is_it).unwrap_or_else(|| panic!("{} has no row", message.rule))
    }

    /// Holds that all of a message is in the row, each sentence once, and answers the words of
    /// the row that it has.
    pub fn hold(&self, message: &Message) -> Vec<String> {
        let parts = message.found.iter().flat_map(|sentence| match self.number {
            1 => sentence.split(". ").collect(),
            _ => vec![sentence.as_str()],
        });
        let found = parts.map(|part| {
            let of: Vec<&String> = self.found.iter().filter(|words| is(words, part)).collect();
            let [words] = of[..] else { panic!("{part}: {of:?}") };
            words.clone()
        });
        let others = message.others.iter().map(|Other { what, .. }| {
            assert!(self.others.contains(what), "{what}");
            what.clone()
        });
        found.chain(others).collect()
    }
}

/// Whether a sentence is one of words with places.
fn is(words: &str, sentence: &str) -> bool {
    let Some((before, rest)) = words.split_once('{') else { return words == sentence };
    let (place, behind) = rest.split_once('}').expect("a place");
    let Some(sentence) = sentence.strip_prefix(before) else { return false };
    let ends = (1..=sentence.len()).filter(|at| sentence.is_char_boundary(*at));
    ends.into_iter().any(|at| fills(place, &sentence[..at]) && is(behind, &sentence[at..]))
}

/// Whether a text may stand in a place.
fn fills(place: &str, text: &str) -> bool {
    match place {
        "line" | "column" | "width" | "point" | "index" | "day" | "time" | "from" | "to"
        | "increment" | "instrument" | "channel" | "number" | "record" => {
            text.bytes().all(|byte| byte.is_ascii_digit())
        }
        "value" | "limit" => text.parse::<f64>().is_ok(),
        "part" => ["hour", "minute", "second"].contains(&text),
        "codes" => match text.as_bytes() {
            [letter, b'1', b' ', b't', b'o', b' ', last, b'9'] => letter == last,
            code => [b"PM", b"KL"].iter().any(|of| of[..] == *code),
        },
        _ => true,
    }
}

/// The characters of a line of a file, R 1, S 2, X 3, as they are shown.
pub fn shown(set: &Set, file: u8, line: u32) -> String {
    let file = small_sets::File::ALL[usize::from(file) - 1];
    let width = set.medium.width();
    let start = set.start(line as usize);
    let bytes = &set.file(file)[start..start + width];
    let character = |byte: &u8| match set.medium {
        small_sets::Medium::Disc => Some(*byte).filter(|byte| (32..=126).contains(byte)),
        small_sets::Medium::Tape => {
            let mut all = small_sets::tape::characters();
            all.find(|character| small_sets::tape::byte_of(*character) == Some(*byte))
        }
    };
    bytes.iter().map(|byte| char::from(character(byte).unwrap_or(b'?'))).collect()
}
