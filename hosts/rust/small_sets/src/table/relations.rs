//! 5 and 6 in relation lines.

use super::write::{accepted, as_a, check, refused, texts};
use crate::line::{receiver, relation, Line};
use crate::place::{below, first};
use crate::File::{R, X};
use crate::{set_a, Case, Set};

const BAD_RECORDS: &str = "    |  -1|  -0|1  1|11  | +11| 1.0|  1A|   -";
const BAD_CHANNELS: &str = "   0|0000|    |  -1|  -0|1   |  +1| 1.0|1  1";
const BAD_DIGITS: &str = "0|-|+|A|.";
const BAD_POINTS: &str = "        |101     |    1 01|    +101|    -101|      -0|   101.0|       -";

/// The first column of a field, and texts that break its rule, parted by bars.
const BAD: &[(usize, &str)] = &[
    (2, " | 100"),
    (8, BAD_RECORDS),
    (12, BAD_DIGITS),
    (13, BAD_DIGITS),
    (14, " | L1"),
    (30, BAD_POINTS),
    (38, BAD_DIGITS),
    (39, BAD_CHANNELS),
    (43, BAD_CHANNELS),
    (47, BAD_DIGITS),
    (48, " | L1"),
    (64, BAD_POINTS),
    (72, BAD_POINTS),
    (80, BAD_DIGITS),
];

/// The same of texts that are legal and leave set A accepted.
const GOOD: &[(usize, &str)] = &[
    (2, "A     |1 0 0 |100  ~|-.;+~!"),
    (8, "   0|9999|0011|0000"),
    (12, " |2|9"),
    (13, " "),
    (30, "00000501|  000501"),
    (38, " "),
    (39, "0001| 001|99979999"),
    (43, "0003"),
    (47, " "),
    (64, "00000101"),
    (72, "00000103"),
    (80, " "),
];

pub fn cases() -> Vec<Case> {
    let bad = |column| refused(5, X, first(), column);
    let mut cases = texts(BAD, X, first(), bad);
    cases.extend(texts(GOOD, X, first(), |_| as_a()));
    cases.extend(instruments());
    cases.extend(disagreements());
    cases.extend(agreements());
    cases.extend(later_lines());
    cases
}

/// Set A with its relation line changed.
fn with(change: impl Fn(Line) -> Line) -> Set {
    set_a().edit(X, first(), change)
}

/// Other instruments, which the header names.
fn instruments() -> Vec<Case> {
    let case = |digit| {
        let set = with(|x| x.instrument(digit)).naming(&[digit]);
        check(format!("X 13 `{digit}`"), set, as_a())
    };
    ["2", "3", "4", "5", "6", "7", "8", "9"].map(case).to_vec()
}

/// Each of 6's three places, and which is tried first.
fn disagreements() -> Vec<Case> {
    let case = |name: &str, set: Set, column| check(name, set, refused(6, X, first(), column));
    vec![
        case("channels 2-1", with(|x| x.channels(2, 1)), 39),
        case("channels 9999-1", with(|x| x.channels(9999, 1)), 39),
        case("channels 1-4, increment 3", with(|x| x.channels(1, 4).increment("3")), 47),
        case("channels 1-3, increment 9", with(|x| x.increment("9")), 47),
        case("channels 2-3, increment 3", with(|x| x.channels(2, 3).increment("3")), 47),
        case("channels 1-2", with(|x| x.channels(1, 2)), 72),
        case("channels 1-3, increment 3", with(|x| x.increment("3")), 72),
        case("channels 1-12, increment 3", with(|x| x.channels(1, 12).increment("3")), 72),
        case("receivers 101-104", with(|x| x.receivers(101, 104)), 72),
        case("receivers 0-99999999", with(|x| x.receivers(0, 99_999_999)), 72),
        case("39 and 47", with(|x| x.channels(4, 1).increment("9")), 39),
        case("39 and 72", with(|x| x.channels(9, 1).receivers(101, 109)), 39),
        case("47 and 72", with(|x| x.increment("2").receivers(101, 109)), 47),
    ]
}

/// Numbers that agree.
fn agreements() -> Vec<Case> {
    let one = with(|x| x.channels(5, 5).receivers(102, 102));
    let nine = with(|x| x.channels(9, 17).increment("9").receivers(102, 102));
    let all = with(|x| x.channels(101, 127).increment("9"));
    let most = with(|x| x.channels(1, 9999).increment("9").receivers(1, 1111));
    let wide = with(|x| x.channels(1, 9999).receivers(1, 9999));
    let many = set_a().add_all(R, (104..=1211).map(receiver));
    let many = many.edit(X, first(), |x| x.channels(1, 9999).increment("9").receivers(101, 1211));
    vec![
        check("one channel", one, accepted(3, 1, 1, 1)),
        check("nine components of one receiver", nine, accepted(3, 1, 1, 9)),
        check("nine components of three receivers", all, accepted(3, 1, 1, 27)),
        check("channels 1-9999 of 1111 receivers", many, accepted(1_111, 1, 1, 9_999)),
        check("channels 1-9999 of missing receivers", most, refused(18, X, first(), 64)),
        check("9999 receivers of which three stand", wide, refused(18, X, first(), 64)),
    ]
}

/// The form of lines below the first relation line.
fn later_lines() -> Vec<Case> {
    let second = |line: Line| set_a().add(X, line);
    let third = set_a().add(X, relation().record(12)).add(X, relation().record(13).channels(1, 4));
    vec![
        check(
            "5 in the second relation line",
            second(relation().at(80, "0")),
            refused(5, X, below(2), 80),
        ),
        check(
            "6 in the second relation line",
            second(relation().increment("2")),
            refused(6, X, below(2), 47),
        ),
        check("6 in the third relation line", third, refused(6, X, below(3), 72)),
    ]
}
