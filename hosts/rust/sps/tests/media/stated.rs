//! What is said of the tape of a disc set, by what is said of disc sets. It is the same
//! answer, but for these:
//!
//! - 1: none. A file that ends within a line has a tape that ends within that record.
//! - 2: a file of 9,999 lines has no room for the EOF record.
//! - 3: a set that breaks it on disc has no tape, and one that has a tape does not break
//!   it. `bytes` has the bytes that no tape takes.
//! - 10: receivers are held to the order of the tape's bytes. Where that is met, the set
//!   is judged as if its receivers stood in the order of the disc.

use crate::compare::compare;
use many_sets::media::{in_order, not_above};
use small_sets::{Answer, File, Medium, Question, Set};

/// Where each line of R stands on tape, by where it stands on disc.
type Moves = [(usize, usize)];

/// What is said of a tape; both readers are asked of disc sets alone.
fn stated(set: &Set, question: &Question) -> Answer {
    let disc = compare(set, question);
    let number = match disc {
        Answer::Refused { number: 20, .. } => return disc,
        Answer::Refused { number, .. } => number,
        _ => 0,
    };
    if let Question::Form { file, kind } = question {
        let too_long = File::of_kind(*kind).filter(|_| is_full(set, *file));
        return too_long.map_or(disc, too_many);
    }
    let full = File::ALL.into_iter().find(|&file| is_full(set, file));
    if let Some(file) = full.filter(|&file| !refused_before(&disc, file)) {
        return too_many(file);
    }
    if matches!(number, 1..=9 | 24 | 25) {
        return disc;
    }
    if let Some(line) = not_above(Medium::Tape, set) {
        return Answer::Refused { number: 10, file: File::R as u8, line: line as u32, column: 2 };
    }
    if number != 10 {
        return disc;
    }
    let (sorted, moves) = in_order(Medium::Disc, set.clone());
    moved(compare(&sorted, &asked(question, &moves)), &moves)
}

fn too_many(file: File) -> Answer {
    Answer::Refused { number: 2, file: file as u8, line: 10_000, column: 0 }
}

/// Whether the tape of a file has a record too many, where its disc has not.
fn is_full(set: &Set, file: File) -> bool {
    set.file(file).len() == 9_999 * 82
}

/// Whether the form of an earlier file is refused.
fn refused_before(answer: &Answer, before: File) -> bool {
    matches!(*answer, Answer::Refused { number: 1..=6, file, .. } if file < before as u8)
}

/// A question about a line of the tape, as one about the disc.
fn asked(question: &Question, moves: &Moves) -> Question {
    let mut question = question.clone();
    if let Question::Channel { r_line, .. } = &mut question {
        let here = moves.iter().find(|(_, tape)| *tape as u64 == *r_line);
        *r_line = here.map_or(*r_line, |(disc, _)| *disc as u64);
    }
    question
}

/// An answer that names lines of the disc, as one that names those of the tape.
fn moved(mut answer: Answer, moves: &Moves) -> Answer {
    let there = |line: &mut u16| {
        let found = moves.iter().find(|(disc, _)| *disc == usize::from(*line));
        *line = found.map_or(*line, |(_, tape)| *tape as u16);
    };
    match &mut answer {
        Answer::Trace { r_line, .. } => there(r_line),
        Answer::Spread { highest, lines, .. } => {
            lines.iter_mut().take((*highest).into()).for_each(there);
        }
        _ => {}
    }
    answer
}

/// Holds both readers to what is stated of the tape of a disc set, and returns it; none
/// where the set has no tape.
pub fn hold(set: &Set, question: &Question, how: &str) -> Option<Answer> {
    let tape = set.on_tape()?;
    let found = compare(&tape, question);
    assert_eq!(found, stated(set, question), "{how}: {question}");
    Some(found)
}
