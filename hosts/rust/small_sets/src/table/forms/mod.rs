//! The form of one file as a kind: 20 for another kind, then 1 to 6 and 29 in the kind's
//! file, whatever the other files are.

mod kinds;
mod refusals;
mod taken;

use super::write::ask;
use crate::{Answer, Case, File, Question, Set};

pub fn cases() -> Vec<Case> {
    [kinds::cases(), refusals::cases(), taken::cases()].concat()
}

/// A file of a set, as a kind.
fn form(name: &str, set: Set, file: File, kind: File, expected: Answer) -> Case {
    let question = Question::Form { file, kind: kind.kind() };
    ask(format!("form: {name}, {file:?} as {kind:?}"), set, question, expected)
}
