//! Values as JSON, and what is said of a set as an object.

use crate::files::Judged;
use crate::judge::Judgement;
use crate::looks;
use crate::message::{shown, Message};
use crate::reasons::Other;
use sps::Accepted;
use std::fmt::{self, Write};
use std::path::Path;

pub enum Json {
    Null,
    Number(u64),
    Text(String),
    List(Vec<Json>),
    Object(Vec<(&'static str, Json)>),
}

use Json::{List, Null, Number, Object, Text};

impl fmt::Display for Json {
    fn fmt(&self, f: &mut fmt::Formatter) -> fmt::Result {
        match self {
            Null => f.write_str("null"),
            Number(number) => write!(f, "{number}"),
            Text(text) => quoted(f, text),
            List(values) => {
                f.write_char('[')?;
                for (at, value) in values.iter().enumerate() {
                    write!(f, "{}{value}", if at > 0 { "," } else { "" })?;
                }
                f.write_char(']')
            }
            Object(fields) => {
                f.write_char('{')?;
                for (at, (name, value)) in fields.iter().enumerate() {
                    write!(f, "{}\"{name}\":{value}", if at > 0 { "," } else { "" })?;
                }
                f.write_char('}')
            }
        }
    }
}

/// A text in quotes: quotes, backslashes and control characters are escaped.
fn quoted(f: &mut fmt::Formatter, text: &str) -> fmt::Result {
    f.write_char('"')?;
    for character in text.chars() {
        match character {
            '"' | '\\' => write!(f, "\\{character}")?,
            '\0'..='\x1F' | '\x7F' => write!(f, "\\u{:04x}", character as u32)?,
            _ => f.write_char(character)?,
        }
    }
    f.write_char('"')
}

fn text(of: impl ToString) -> Json {
    Text(of.to_string())
}

fn or_null<T>(of: Option<T>, show: impl FnOnce(T) -> Json) -> Json {
    of.map_or(Null, show)
}

/// What is said of a set: its folder where one is given, the status, and what was found.
pub fn object(folder: Option<&Path>, status: u8, found: &Result<Judgement, String>) -> Json {
    let judged = found.as_ref().ok();
    let files = judged.map_or(&[][..], |judgement| &judgement.files);
    let by_letter = |file: &Judged| (letter(file), text(file.path().display()));
    let accepted = judged.and_then(|judgement| judgement.verdict.ok().flatten());
    let refusal = judged.and_then(|judgement| judgement.verdict.err());
    Object(vec![
        ("folder", or_null(folder, |folder| text(folder.display()))),
        ("files", Object(files.iter().map(by_letter).collect())),
        ("status", Number(status.into())),
        ("verdict", or_null(judged, |judgement| Text(judgement.line()))),
        ("counts", or_null(accepted, counts)),
        ("refusal", or_null(refusal, |refusal| refused(&Message::of(refusal, files), files))),
        ("error", or_null(found.as_ref().err(), text)),
    ])
}

fn letter(file: &Judged) -> &'static str {
    match file.kind {
        sps::File::R => "R",
        sps::File::S => "S",
        sps::File::X => "X",
    }
}

fn counts(of: Accepted) -> Json {
    Object(vec![
        ("receivers", Number(of.receivers)),
        ("shots", Number(of.shots)),
        ("relations", Number(of.relations)),
        ("traces", Number(of.traces)),
        ("dead_traces", Number(of.dead_traces)),
    ])
}

fn refused(message: &Message, files: &[Judged]) -> Json {
    let looks = looks::like_other(files);
    let looks = Some(looks.trim_end()).filter(|looks| !looks.is_empty());
    Object(vec![
        ("number", Number(message.refusal.number.code())),
        ("file", or_null(message.file, |file| text(letter(file)))),
        ("line", Number(message.refusal.line)),
        ("column", Number(message.refusal.column)),
        ("path", or_null(message.file, |file| text(file.path().display()))),
        ("rule", text(&message.rule)),
        ("found", List(message.found.iter().map(text).collect())),
        ("text", or_null(message.text(), Text)),
        ("others", List(message.others.iter().map(other).collect())),
        ("looks", or_null(looks, text)),
    ])
}

fn other(Other { file, line, column, what }: &Other) -> Json {
    Object(vec![
        ("path", text(file.path().display())),
        ("line", Number(*line)),
        ("column", Number(*column)),
        ("what", Text(what.plain())),
        ("text", or_null(shown(file, *line, *column), Text)),
    ])
}
