//! One set in all spellings.

use crate::compare::compare;
use many_sets::spellings::Spelling::{Bare, Pointed};
use small_sets::{Answer, Question, Set};

/// A disc set as it is, with points and without.
pub fn twins(set: &Set) -> [Set; 3] {
    [set.clone(), Pointed.set(set.clone()), Bare.set(set.clone())]
}

/// Holds both readers to one answer on all of them, and returns it.
pub fn hold([set, twins @ ..]: &[Set; 3], question: &Question, how: &str) -> Answer {
    let answer = compare(set, question);
    for (twin, spelling) in twins.iter().zip([Pointed, Bare]) {
        assert_eq!(compare(twin, question), answer, "{how}, {spelling:?}: {question}");
    }
    answer
}
