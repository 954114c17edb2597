//! Sets near the limits, on tape.

use crate::stated::hold;
use many_sets::large::{survey, FULL, HOSTILE};
use many_sets::media::in_order;
use small_sets::{Answer, Medium, Question};
use std::collections::BTreeSet;

/// Hostile sets of 2,000 lines a file, as they are and with their receivers in the order
/// of the tape.
#[test]
fn hostile_sets() {
    let mut numbers = BTreeSet::new();
    for (name, make) in HOSTILE {
        let set = make(2_000).plain();
        for set in [in_order(Medium::Tape, set.clone()).0, set] {
            let answer = hold(&set, &Question::Cross, name).expect("a tape");
            numbers.insert(match answer {
                Answer::Refused { number, .. } => number,
                _ => 0,
            });
        }
    }
    assert_eq!(numbers, BTreeSet::from([0, 9, 10, 12, 13, 15, 16, 18, 19, 24, 25]));
}

/// 9,998 lines and EOF are not too many; on disc one more is not.
#[test]
fn full_sets() {
    let (_, make) = HOSTILE[0];
    let verdict = |set| {
        let answer = hold(&set, &Question::Cross, "a full set").expect("a tape");
        answer.verdict().expect("of a cross-check")
    };
    assert_eq!(verdict(make(FULL)), "REFUSED 2 R 10000 0\n");
    assert!(verdict(make(FULL - 1)).starts_with("ACCEPTED "));
    assert_eq!(verdict(survey(1_995)), "REFUSED 2 X 10000 0\n");
    assert_eq!(verdict(survey(1_994)), "ACCEPTED 9954 1994 9970 1994000 0\n");
}
