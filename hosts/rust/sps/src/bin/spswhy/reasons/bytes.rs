//! 3: the byte that is not taken.

use super::{Case, Told};
use crate::looks;
use crate::rows::form::*;
use crate::text::byte_name;
use sps::Medium;

/// The byte and what its column takes. Where it is the first of the file, ends lines, or stands
/// where lines end, also what the file looks like.
pub fn not_taken<'a>(case: &Case<'a>) -> Option<Told<'a>> {
    let (file, column) = (case.judged, case.refusal.column);
    let byte = *file.bytes_of(case.line())?.get((column as usize).checked_sub(1)?)?;
    let shown = byte_name(file.medium, byte);
    let (rule, found) = match (file.medium, column) {
        (Medium::Tape, _) => (NO_CHARACTER, NEEDS_TAKEN.with(&[&column, &shown])),
        (Medium::Disc, 81) => (NO_CR, NEEDS_CR.with(&[&shown])),
        (Medium::Disc, 82) => (NO_LF, NEEDS_LF.with(&[&shown])),
        (Medium::Disc, _) => (NO_CHARACTER, NEEDS_CHARACTER.with(&[&column, &shown])),
    };
    let looks = match (case.line(), column, byte) {
        (1, 1, _) | (_, ..=80, b'\r' | b'\n') | (_, 81.., _) => looks::like(file),
        _ => Vec::new(),
    };
    Some(Told::of(rule, [vec![found], looks].concat()))
}
