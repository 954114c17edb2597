//! What the lines of the files say of a refusal, by its number.
//!
//! Each reason starts from the refusal that the proved call gives and looks for what it is
//! about: a field's text, another line. It judges nothing; where it finds nothing it says
//! nothing.

mod bytes;
mod channels;
mod ends;
mod headers;
mod lengths;
mod letters;
mod points;
mod receivers;
mod records;
mod shots;
mod stations;
mod tables;
mod values;

use crate::files::Judged;
use crate::words::Words;
use sps::{Number, Refusal};

/// A refusal of one of some files: one, or R, S and X.
pub struct Case<'a> {
    pub refusal: Refusal,
    pub judged: &'a Judged,
    pub files: &'a [Judged],
}

/// The rule that is breached, what is found, and other lines that it is about.
pub struct Told<'a> {
    pub rule: Words,
    pub found: Vec<String>,
    pub others: Vec<Other<'a>>,
}

/// Another line, with a column to mark and what it is.
pub struct Other<'a> {
    pub file: &'a Judged,
    pub line: u64,
    pub column: u64,
    pub what: Words,
}

impl<'a> Case<'a> {
    fn line(&self) -> u64 {
        self.refusal.line
    }

    /// The characters of the line.
    fn text(&self) -> Option<Vec<u8>> {
        self.judged.text(self.line())
    }

    /// R, S and X.
    fn set(&self) -> Option<[&'a Judged; 3]> {
        match self.files {
            [r, s, x] => Some([r, s, x]),
            _ => None,
        }
    }
}

impl<'a> Told<'a> {
    fn of(rule: Words, found: impl IntoIterator<Item = String>) -> Told<'a> {
        Told { rule, found: found.into_iter().collect(), others: Vec::new() }
    }

    /// Another line more.
    fn beside(mut self, file: &'a Judged, line: u64, column: u64, what: Words) -> Told<'a> {
        self.others.push(Other { file, line, column, what });
        self
    }
}

/// What is told of a refusal.
pub fn told<'a>(case: &Case<'a>) -> Option<Told<'a>> {
    match case.refusal.number {
        Number::FileLength => lengths::no_multiple(case),
        Number::TooManyLines => lengths::too_many(case),
        Number::Byte => bytes::not_taken(case),
        Number::Letter => letters::letter(case),
        Number::Field => values::field(case),
        Number::Channels => channels::disagree(case),
        Number::HeaderType => headers::missing(case),
        Number::H18 => headers::projection(case),
        Number::HeaderDiffers => headers::differs(case),
        Number::ReceiverOrder => points::order(case),
        Number::ShotEarlier => points::earlier(case),
        Number::ShotRepeated => points::repeated(case),
        Number::NoShot => shots::no_shot(case),
        Number::ShotOrder => shots::order(case),
        Number::ShotNotNamed => shots::not_named(case),
        Number::Record => records::record(case),
        Number::ChannelOrder => records::channels(case),
        Number::NoReceiver => receivers::missing(case),
        Number::CoveredTwice => receivers::covered_twice(case),
        Number::CodeNamedTwice => tables::named_twice(case),
        Number::CodeNotNamed => tables::not_named(case),
        Number::TapeEnd => ends::end(case),
        _ => None,
    }
}
