//! 5 in the point lines of R and S: every field, good and bad. `decimals` has depth,
//! easting, northing and elevation.

use super::write::{accepted, as_a, check, refused, texts};
use crate::place::{below, first};
use crate::File::{self, R, S};
use crate::{set_a, Case};

/// The first column of a field, and texts that break its rule in R and in S, parted by bars.
const BAD: &[(usize, &str)] = &[
    (2, " | L1"),
    (18, "        |501     |    5 01|    +501|    -501|      -0|   501.0|     5e2|0x000501"),
    (18, "       -|5      1|    501-"),
    (26, "0|-|+|A|."),
    (29, "1000|9999|-  1|+  1|1   | 1.0|   -|--99|1 23|0-12|12- "),
    (37, "    |+100|- 10|10.0|1 00|100 |   -|--10|0x10"),
    (41, "-1|-0|+1|1 |A1| -|.1"),
    (43, "1000|9999|-1.0|-0.0|  -0| -10| 10 | 10.|  .5|1.25|1 .0|+1.0|1 00"),
    (72, "   |000|  0| -1|-99|1  |+01|1.0|1 3|A13"),
    (75, "240000|236000|235960|006000|000060|999999| 71245|      |-00001|07124 |07:245|+71245"),
];

/// The same of texts that are legal in R and in S, and do not matter to other rules.
const GOOD: &[(usize, &str)] = &[
    (26, " "),
    (29, "-999| 999|0999|  -0|-000|   0|0000|    |  -1"),
    (37, "-999|9999|  -0|0000|-001"),
    (41, "99| 0|00|  |09"),
    (43, " 999|0999|99.9| 0.0|00.0|   0|0000|    |  99|   5|  50| 500|0050"),
];

const CODES_OF_R: &str = "GHR";
const CODES_OF_S: &str = "VEAWS";

pub fn cases() -> Vec<Case> {
    let mut cases = Vec::new();
    for (file, line) in [(R, below(3)), (S, first())] {
        let bad = |column| refused(5, file, line, column);
        cases.extend(texts(BAD, file, line, bad));
        cases.extend(texts(GOOD, file, line, |_| as_a()));
    }
    codes(R, below(3), CODES_OF_R, CODES_OF_S, &mut cases);
    codes(S, first(), CODES_OF_S, CODES_OF_R, &mut cases);
    cases.extend(days_and_points());
    cases
}

/// Codes of the file with 1 to 9, which the header names; none of the other file, and no
/// other. `killed` has KL.
fn codes(file: File, line: usize, own: &str, others: &str, cases: &mut Vec<Case>) {
    let with_code = |code: &str| set_a().put(file, line, 27, code);
    let mut good = Vec::new();
    let mut bad: Vec<String> =
        ["  ", "P1", "K1", "pm", "kl", "Pm", "PL", "KM", "MP", "LK", "1G", "Z1"]
            .map(String::from)
            .to_vec();
    for letter in own.chars() {
        good.extend((1..=9).map(|digit| format!("{letter}{digit}")));
        bad.extend(["0", " ", "A", "M"].map(|second| format!("{letter}{second}")));
        bad.push(format!("{}1", letter.to_ascii_lowercase()));
    }
    bad.extend(others.chars().map(|letter| format!("{letter}1")));
    for code in good {
        let set = match code.as_str() {
            "G1" | "V1" => with_code(&code),
            code => with_code(code).naming(&[code]),
        };
        cases.push(check(format!("{file:?} code `{code}`"), set, as_a()));
    }
    for code in bad {
        cases.push(check(
            format!("{file:?} code `{code}`"),
            with_code(&code),
            refused(5, file, line, 27),
        ));
    }
}

/// Edges of day, time and point number, where R and S need not agree.
fn days_and_points() -> Vec<Case> {
    let mut cases = Vec::new();
    for (file, line) in [(R, first()), (S, first())] {
        for day in ["999", "001", "  1", " 99"] {
            let name = format!("{file:?} day `{day}`");
            cases.push(check(name, set_a().put(file, line, 72, day), as_a()));
        }
        for time in ["000000", "235959", "000059", "005900", "230000"] {
            let name = format!("{file:?} time `{time}`");
            cases.push(check(name, set_a().put(file, line, 75, time), as_a()));
        }
    }
    let zero = set_a().put(R, first(), 18, "       0").put(S, first(), 18, "00000000");
    let zero = zero.edit(File::X, first(), |x| x.source(0).channels(1, 1).receivers(0, 0));
    let most = set_a().put(R, below(3), 18, "99999999").put(S, first(), 18, "99999999");
    let most = most.edit(File::X, first(), |x| {
        x.source(99_999_999).channels(7, 7).receivers(99_999_999, 99_999_999)
    });
    let padded = set_a().put(R, below(2), 18, "00000102").put(S, first(), 18, "00000501");
    cases.extend([
        check("point number 0", zero, accepted(3, 1, 1, 1)),
        check("point number 99999999", most, accepted(3, 1, 1, 1)),
        check("point numbers with leading zeros", padded, as_a()),
    ]);
    cases
}
