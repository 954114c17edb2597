//! A case of the table: a set, a question, and the answer that the paper gives.

use crate::{File, Set};
use std::fmt;

/// What stands in every byte of both spread slices before the question.
pub const STAYS: u8 = 0xEE;

#[derive(Clone, Debug, PartialEq, Eq)]
pub enum Question {
    /// The form of one of the files, as a kind: the letter R, S or X, as its byte.
    Form {
        file: File,
        kind: u64,
    },
    Cross,
    Trace {
        tape: Vec<u8>,
        record: u64,
        channel: u64,
    },
    Channel {
        tape: Vec<u8>,
        record: u64,
        r_line: u64,
        component: u64,
    },
    /// The slices have these numbers of places, each byte holding `STAYS`.
    Spread {
        tape: Vec<u8>,
        record: u64,
        lines_len: usize,
        components_len: usize,
    },
    /// The kind is the letter R, S or X, as its byte.
    TableLine {
        kind: u64,
        code: Vec<u8>,
    },
}

#[derive(Clone, Debug, PartialEq, Eq)]
pub enum Answer {
    /// One file is well formed.
    Formed,
    Accepted {
        receivers: u64,
        shots: u64,
        relations: u64,
        traces: u64,
        dead_traces: u64,
    },
    /// The file is 0 where there is no place, otherwise R 1, S 2, X 3. Spread
    /// slices stay as they are.
    Refused {
        number: u8,
        file: u8,
        line: u32,
        column: u8,
    },
    Trace {
        r_line: u16,
        component: u8,
        killed: bool,
    },
    Channel(u16),
    NoTrace,
    /// The highest channel, and both slices in full.
    Spread {
        highest: u16,
        lines: Vec<u16>,
        components: Vec<u8>,
    },
    /// The header line that names a code.
    TableLine(u16),
    NotNamed,
}

#[derive(Clone, Debug)]
pub struct Case {
    pub name: String,
    pub set: Set,
    pub question: Question,
    pub expected: Answer,
}

impl fmt::Display for Question {
    fn fmt(&self, f: &mut fmt::Formatter) -> fmt::Result {
        match self {
            Question::Form { file, kind } => write!(f, "form of {file:?} as kind {kind}"),
            Question::Cross => write!(f, "cross-check"),
            Question::Trace { tape, record, channel } => {
                write!(f, "`{}` {record}, channel {channel}", tape.escape_ascii())
            }
            Question::Channel { tape, record, r_line, component } => {
                let tape = tape.escape_ascii();
                write!(f, "`{tape}` {record}, R line {r_line}, component {component}")
            }
            Question::Spread { tape, record, lines_len, components_len } => {
                let tape = tape.escape_ascii();
                write!(f, "`{tape}` {record}, slices of {lines_len} and {components_len}")
            }
            Question::TableLine { kind, code } => {
                write!(f, "code `{}` of kind {kind}", code.escape_ascii())
            }
        }
    }
}

impl Answer {
    /// The one number that a C host gets.
    pub fn host_number(&self) -> u64 {
        match *self {
            Answer::Accepted { traces, .. } => traces,
            Answer::Refused { number, file, line, column } => {
                let place = u64::from(line) * 256 + u64::from(column);
                u64::from(number) * (1 << 40) + u64::from(file) * (1 << 32) + place
            }
            Answer::Trace { r_line, component, killed } => {
                u64::from(r_line) * 16 + u64::from(component) + u64::from(killed) * (1 << 32)
            }
            Answer::Channel(channel) => u64::from(channel),
            Answer::TableLine(line) => u64::from(line),
            Answer::Formed | Answer::NoTrace | Answer::NotNamed => 0,
            Answer::Spread { highest, .. } => u64::from(highest),
        }
    }

    /// The line of a program, with its line feed; programs check files and sets.
    pub fn verdict(&self) -> Option<String> {
        match *self {
            Answer::Formed => Some("ACCEPTED\n".to_owned()),
            Answer::Accepted { receivers, shots, relations, traces, dead_traces } => {
                Some(format!("ACCEPTED {receivers} {shots} {relations} {traces} {dead_traces}\n"))
            }
            Answer::Refused { number, file, line, column } => {
                let file = File::ALL.into_iter().find(|&of| of as u8 == file)?;
                let letter = file.letter();
                Some(format!("REFUSED {number} {letter} {line} {column}\n"))
            }
            _ => None,
        }
    }
}
