//! 29: the record that ends a tape.

use super::{Case, Told};
use crate::rows::form::*;
use crate::words::counted;

pub fn end<'a>(case: &Case<'a>) -> Option<Told<'a>> {
    let records = case.judged.lines();
    let mut ends = case.judged.texts().filter(|(_, text)| text.starts_with(b"EOF"));
    let Some((record, _)) = ends.next() else {
        let found = NONE_WITH_EOF.with(&[&counted(records, "record")]);
        return Some(Told::of(NO_END, [found]));
    };
    let more = counted(records - record, "record");
    let told = Told::of(LATE_RECORDS, [EOF_AND_MORE.with(&[&record, &more])]);
    Some(told.beside(case.judged, record, 1, EOF_RECORD))
}
