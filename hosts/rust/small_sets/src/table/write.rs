//! Short ways to write a case down.

use crate::{set_a, Answer, Case, File, Question, Set, STAYS};

/// A case of the cross-check.
pub fn check(name: impl Into<String>, set: Set, expected: Answer) -> Case {
    ask(name, set, Question::Cross, expected)
}

pub fn ask(name: impl Into<String>, set: Set, question: Question, expected: Answer) -> Case {
    Case { name: name.into(), set, question, expected }
}

/// Set A with one text at a time put at a column of a line; the texts are parted by bars.
pub fn texts(
    rows: &[(usize, &str)],
    file: File,
    line: usize,
    expected: impl Fn(usize) -> Answer,
) -> Vec<Case> {
    let mut cases = Vec::new();
    for &(column, texts) in rows {
        for text in texts.split('|') {
            let set = set_a().put(file, line, column, text);
            cases.push(check(format!("{file:?} {column} `{text}`"), set, expected(column)));
        }
    }
    cases
}

/// Tape `100`, record 11.
pub fn trace(channel: u64) -> Question {
    trace_of("100   ", 11, channel)
}

pub fn trace_of(tape: impl AsRef<[u8]>, record: u64, channel: u64) -> Question {
    Question::Trace { tape: tape.as_ref().to_vec(), record, channel }
}

/// Tape `100`, record 11.
pub fn channel(r_line: usize, component: u64) -> Question {
    channel_of("100   ", 11, r_line, component)
}

pub fn channel_of(tape: impl AsRef<[u8]>, record: u64, r_line: usize, component: u64) -> Question {
    Question::Channel { tape: tape.as_ref().to_vec(), record, r_line: r_line as u64, component }
}

/// Tape `100`, record 11.
pub fn spread(lines_len: usize, components_len: usize) -> Question {
    spread_of("100   ", 11, lines_len, components_len)
}

pub fn spread_of(
    tape: impl AsRef<[u8]>,
    record: u64,
    lines_len: usize,
    components_len: usize,
) -> Question {
    Question::Spread { tape: tape.as_ref().to_vec(), record, lines_len, components_len }
}

/// The header line of a code by the letter of its kind.
pub fn table_line(kind: char, code: &str) -> Question {
    table_line_of(kind.into(), code)
}

pub fn table_line_of(kind: u64, code: impl AsRef<[u8]>) -> Question {
    Question::TableLine { kind, code: code.as_ref().to_vec() }
}

/// The counts of a set without dead traces.
pub fn accepted(receivers: u64, shots: u64, relations: u64, traces: u64) -> Answer {
    with_dead([receivers, shots, relations, traces], 0)
}

/// The receivers, shots, relation lines and traces of a set, some of which are dead.
pub fn with_dead([receivers, shots, relations, traces]: [u64; 4], dead_traces: u64) -> Answer {
    Answer::Accepted { receivers, shots, relations, traces, dead_traces }
}

/// The counts of set A.
pub fn as_a() -> Answer {
    accepted(3, 1, 1, 3)
}

pub fn refused(number: u8, file: File, line: usize, column: usize) -> Answer {
    Answer::Refused { number, file: file as u8, line: line as u32, column: column as u8 }
}

/// 20 or 21, which have no place.
pub fn placeless(number: u8) -> Answer {
    Answer::Refused { number, file: 0, line: 0, column: 0 }
}

/// From a receiver that is not killed.
pub fn comes_from(r_line: usize, component: u8) -> Answer {
    Answer::Trace { r_line: r_line as u16, component, killed: false }
}

pub fn comes_from_killed(r_line: usize, component: u8) -> Answer {
    Answer::Trace { r_line: r_line as u16, component, killed: true }
}

/// The highest channel, and what each place of slices of these lengths holds
/// from the first on; the places behind stay.
pub fn filled(
    highest: u16,
    places: &[(usize, u8)],
    lines_len: usize,
    components_len: usize,
) -> Answer {
    let mut lines: Vec<u16> = places.iter().map(|place| place.0 as u16).collect();
    let mut components: Vec<u8> = places.iter().map(|place| place.1).collect();
    lines.resize(lines_len, u16::from_ne_bytes([STAYS; 2]));
    components.resize(components_len, STAYS);
    Answer::Spread { highest, lines, components }
}
