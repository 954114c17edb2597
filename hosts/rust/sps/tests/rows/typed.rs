//! The rows of the wrapper, with the tape and the record of their relation line.

use crate::hold::Told;
use crate::keep::keep;
use crate::wrapped::wrapped;
use small_sets::Set;
use sps::Row;

/// What is told of a set, as the wrapper has it; the naive reader reads the lines of X.
pub fn rows(set: &Set, told: &Told) -> Vec<Row> {
    let medium = naive::medium(set.medium as u64).expect("a medium");
    let mut line = None;
    let row = |row: &naive::Row| {
        let naive::Row { x_line, channel, trace } = *row;
        if line.is_none_or(|(read, _)| read != x_line) {
            let relation = naive::relation_at(medium, &set.x, x_line.into());
            line = Some((x_line, relation.expect("a relation line")));
        }
        let (_, relation) = line.expect("a line that is read");
        Row {
            tape: relation.tape,
            record: relation.record as u32,
            channel: channel.into(),
            r_line: trace.r_line.into(),
            component: trace.component,
            killed: trace.killed,
            x_line,
        }
    };
    told.rows.iter().map(row).collect()
}

/// Holds the wrapper to what is told, with a buffer of some bytes: all rows and no more, or the
/// refusal of the cross-check once.
pub fn hold(set: &Set, told: &Told, length: usize) {
    let mut buffer = vec![0; length];
    let mut found = wrapped(set).rows_with(&mut buffer);
    let same = if told.is_refused() {
        found.next() == wrapped(set).cross().err().map(Err)
    } else {
        rows(set, told).into_iter().all(|row| found.next() == Some(Ok(row)))
    };
    if !same || found.next().is_some() || found.next().is_some() {
        panic!("a buffer of {length} bytes\n  the files are in {}", keep(set).display());
    }
}
