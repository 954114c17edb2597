//! Sets whose answers are written down: the disc cases of the table, and the examples.

use crate::twins::{hold, twins};
use many_sets::spellings::spelt;
use small_sets::{examples, set_a, table, Medium, Question};

/// Set A's zeros, and the values of the cases, in the other spelling.
#[test]
fn each_case() {
    let mut cases = 0;
    for case in table().into_iter().filter(|case| case.set.medium == Medium::Disc) {
        let answer = hold(&twins(&case.set), &case.question, &case.name);
        assert_eq!(answer, case.expected, "{}", case.name);
        cases += 1;
    }
    assert!(cases > 2_000, "{cases} cases");
}

#[test]
fn each_example() {
    for example in examples().iter().filter(|example| example.set.medium == Medium::Disc) {
        let answer = hold(&twins(&example.set), &Question::Cross, example.name);
        assert_eq!(answer.verdict().as_deref(), Some(example.verdict.as_str()), "{}", example.name);
    }
}

/// Set A has a point in each of the decimals of its three receivers and its shot, the two
/// crews' set in none.
#[test]
fn the_two_crews() {
    let crews = examples().into_iter().find(|example| example.name == "no_points");
    let crews = crews.expect("the example").set;
    assert_eq!((spelt(&set_a()), spelt(&crews)), ([16, 0], [0, 16]));
    let [_, pointed, bare] = twins(&crews);
    assert_eq!((spelt(&pointed), spelt(&bare)), ([16, 0], [0, 16]));
}
