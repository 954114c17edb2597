//! Questions on a set, in range and out of it. Most are about a relation line of
//! the set: what it covers, and what is just beside that. Others are about codes.

mod channels;
mod codes;
mod lengths;
mod numbers;
mod r_lines;
mod tapes;

use crate::faults::own_line;
use small_sets::{relation, File, Line, Question, Random, Set};

/// What asks a question of one kind.
pub type Ask = fn(&mut Random, &Set) -> Question;

/// The lookup from a trace to its receiver.
pub fn trace(random: &mut Random, set: &Set) -> Question {
    let line = line(random, set);
    let (tape, record) = tapes::with_record(random, set, &line);
    Question::Trace { tape, record, channel: channels::channel(random, &line) }
}

/// The way back.
pub fn channel(random: &mut Random, set: &Set) -> Question {
    let line = line(random, set);
    let (tape, record) = tapes::with_record(random, set, &line);
    let r_line = r_lines::r_line(random, set, &line);
    Question::Channel { tape, record, r_line, component: channels::component(random, &line) }
}

/// The spread table.
pub fn spread(random: &mut Random, set: &Set) -> Question {
    let line = line(random, set);
    let (tape, record) = tapes::with_record(random, set, &line);
    let highest = lengths::highest(set, &line);
    let [lines_len, components_len] = [(); 2].map(|()| lengths::length(random, highest));
    Question::Spread { tape, record, lines_len, components_len }
}

/// The header line of a code.
pub fn table_line(random: &mut Random, set: &Set) -> Question {
    let (kind, code) = codes::with_kind(random, set);
    Question::TableLine { kind, code }
}

/// The relation line that a question is about; where there is none, that of set A.
fn line(random: &mut Random, set: &Set) -> Line {
    own_line(random, set, File::X).map_or_else(relation, |line| set.line(File::X, line))
}
