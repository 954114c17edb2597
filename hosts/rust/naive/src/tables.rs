//! The code tables of R's header: no code is named twice (24), and each that is used is
//! named (25).

use crate::codes::is_numbered;
use crate::fields::field;
use crate::form::Form;
use crate::set::live;
use crate::{placeless, refusal, File, Line, PointLine, Refusal, Relation};
use std::collections::HashMap;

/// What a code is a code of.
#[derive(Clone, Copy, PartialEq, Eq, Hash)]
enum Kind {
    Receiver,
    Source,
    Instrument,
}

use Kind::{Instrument, Receiver, Source};

/// A kind and the two columns of a code; an instrument is a digit and a comma.
#[derive(Clone, Copy, PartialEq, Eq, Hash)]
pub struct Code(Kind, [u8; 2]);

/// The header line that names each code.
pub struct Tables(HashMap<Code, u32>);

impl Code {
    /// The code of two columns, where they are one of the kind.
    fn of(kind: Kind, columns: [u8; 2]) -> Option<Code> {
        let is_one = match kind {
            Receiver => is_numbered(File::R, &columns),
            Source => is_numbered(File::S, &columns),
            Instrument => matches!(columns, [b'1'..=b'9', b',']),
        };
        is_one.then_some(Code(kind, columns))
    }

    /// The code of a question by the letter of its kind, or 20.
    pub fn asked(letter: u64, code: &[u8]) -> Result<Code, Refusal> {
        let found = match (File::asked(letter)?, code) {
            (File::R, &[letter, digit]) => Code::of(Receiver, [letter, digit]),
            (File::S, &[letter, digit]) => Code::of(Source, [letter, digit]),
            (File::X, &[digit]) => Code::of(Instrument, [digit, b',']),
            _ => None,
        };
        found.ok_or(placeless(20))
    }

    /// The code that a header line names: one of the kind whose table it begins.
    fn named(line: &Line) -> Option<Code> {
        Code::of(begins(line)?, [line[32], line[33]])
    }
}

/// The kind of the table of which a header line is the first record, by columns 2 to 4.
fn begins(line: &Line) -> Option<Kind> {
    match field(line, 2, 4).whole(0..=999).ok()? {
        number @ 400..=560 if number % 20 == 0 => Some(Instrument),
        number @ 600..=690 if number % 10 == 0 => Some(Receiver),
        number @ 700..=880 if number % 20 == 0 => Some(Source),
        _ => None,
    }
}

impl Tables {
    /// The tables of R's header lines; 24.
    pub fn read(r: &[Line]) -> Result<Tables, Refusal> {
        let mut lines = HashMap::new();
        for (number, line) in (1..).zip(r) {
            let Some(code) = Code::named(line) else { continue };
            if lines.insert(code, number).is_some() {
                return Err(refusal(24, File::R, number, 33));
            }
        }
        Ok(Tables(lines))
    }

    /// The line that names a code.
    pub fn line(&self, code: Code) -> Option<u16> {
        self.0.get(&code).map(|&line| line as u16)
    }

    /// 25 over R, then S, then X.
    pub fn name_all(
        &self,
        r: &Form<PointLine>,
        s: &Form<PointLine>,
        x: &Form<Relation>,
    ) -> Result<(), Refusal> {
        self.name_points(File::R, r, Receiver)?;
        self.name_points(File::S, s, Source)?;
        for (line, relation) in x.numbered() {
            let instrument = Code(Instrument, [b'0' + relation.instrument, b',']);
            if self.line(instrument).is_none() {
                return Err(refusal(25, File::X, line, 13));
            }
        }
        Ok(())
    }

    /// 25 over R or S; a killed point uses no code.
    fn name_points(&self, file: File, form: &Form<PointLine>, kind: Kind) -> Result<(), Refusal> {
        let unnamed = |code| self.line(Code(kind, code)).is_none();
        match live(form).find(|(_, point)| unnamed(point.code)) {
            Some((line, _)) => Err(refusal(25, file, line, 27)),
            None => Ok(()),
        }
    }
}
