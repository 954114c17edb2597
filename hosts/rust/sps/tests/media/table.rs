//! The cases of the table that are of discs, on tape.

use crate::stated::hold;
use small_sets::{table, Answer, Medium};

fn refused_with(answer: &Answer) -> Option<u8> {
    match *answer {
        Answer::Refused { number, .. } => Some(number),
        _ => None,
    }
}

/// Most have a tape, and are answered as it is written down of the disc; 2 and 10 tell
/// some apart.
#[test]
fn each_case() {
    let (mut none, mut alike, mut differ) = (0, 0, 0);
    for case in table().into_iter().filter(|case| case.set.medium == Medium::Disc) {
        let plain = case.set.clone().plain();
        match hold(&plain, &case.question, &case.name) {
            None => none += 1,
            Some(answer) if answer == case.expected => alike += 1,
            Some(answer) => {
                let by = |answer: &Answer, number| refused_with(answer) == Some(number);
                let apart = by(&answer, 2) || by(&answer, 10) || by(&case.expected, 10);
                assert!(apart, "{}: {answer:?}", case.name);
                differ += 1;
            }
        }
    }
    assert!(none < 400 && alike > 1_200, "{none} have no tape, {alike} are answered alike");
    assert!(differ > 15, "{differ} are told apart");
}
