//! 1 and 2: how long the file is, and what it looks like.

use super::{Case, Told};
use crate::looks;
use crate::rows::form::*;
use crate::words::{counted, grouped};
use sps::Medium;

/// 1: bytes, whole lines and what is left over, then what the file looks like.
pub fn no_multiple<'a>(case: &Case<'a>) -> Option<Told<'a>> {
    let file = case.judged;
    let (rule, one) = match file.medium {
        Medium::Disc => (DISC_LENGTH, "line"),
        Medium::Tape => (TAPE_LENGTH, "record"),
    };
    let width = file.width() as u64;
    let [bytes, lines] = [counted(file.length, "byte"), counted(file.length / width, one)];
    let found = BYTES_AND_LINES.with(&[&bytes, &lines, &width, &(file.length % width)]);
    let all = [vec![found], looks::like(file)].concat();
    Some(Told::of(rule, [all.join(". ")]))
}

/// 2: how many lines there are.
pub fn too_many<'a>(case: &Case<'a>) -> Option<Told<'a>> {
    let lines = case.judged.length / case.judged.width() as u64;
    let found = match case.judged.medium {
        Medium::Disc => LINES_AND_LIMIT.with(&[&grouped(lines)]),
        Medium::Tape => RECORDS_AND_LIMIT.with(&[&grouped(lines)]),
    };
    Some(Told::of(MANY_LINES, [found]))
}
