//! Header lines: 5 in them, then 7, 8 and 9.

use super::write::{as_a, check, refused};
use crate::line::header;
use crate::place::{first, header_line, last_header};
use crate::File::{self, R, S, X};
use crate::{headers_only, set_a, Case, Set};

pub fn cases() -> Vec<Case> {
    [fields(), types(), projections(), blocks()].concat()
}

/// 5: columns 2-3 and column 4.
fn fields() -> Vec<Case> {
    let mut cases = Vec::new();
    for (file, line) in [(R, 1), (S, header_line(6)), (X, last_header())] {
        for text in ["  ", " 1", "1 ", "A1", "1A", "-1", "+1", ".1"] {
            cases.push(check(
                format!("H{text} in {file:?}"),
                set_a().put(file, line, 2, text),
                refused(5, file, line, 2),
            ));
        }
        for text in ["A", "-", ".", ";"] {
            cases.push(check(
                format!("column 4 `{text}` in {file:?}"),
                set_a().put(file, line, 4, text),
                refused(5, file, line, 4),
            ));
        }
    }
    let both = set_a().put(R, 3, 2, "A1B");
    let further = set_a().each(|set, file| {
        let more = [header(2).at(4, "1"), header(26), header(99).at(4, "0")];
        more.into_iter().fold(set, |set, line| set.insert(file, first(), line))
    });
    cases.extend([
        check("both fields of a header line", both, refused(5, R, 3, 2)),
        check("H990, H26 and H021 beside H00 to H20", further, as_a()),
    ]);
    cases
}

/// 7: the types 00 to 20, each with a blank column 4.
fn types() -> Vec<Case> {
    let mut cases = Vec::new();
    for number in 0..=20 {
        let line = header_line(number);
        cases.push(check(
            format!("no H{number:02}"),
            set_a().each(|set, file| set.remove(file, line)),
            refused(7, R, last_header(), 0),
        ));
        cases.push(check(
            format!("no H{number:02} in R alone"),
            set_a().remove(R, line),
            refused(7, R, last_header(), 0),
        ));
        cases.push(check(
            format!("H{number:02}1 is no H{number:02}"),
            set_a().each(|set, file| set.put(file, line, 4, "1")),
            refused(7, R, first(), 0),
        ));
    }
    let reversed = set_a().each(|set, file| {
        (2..=last_header()).fold(set, |set, line| {
            let text = set.line(file, line);
            set.remove(file, line).insert(file, 1, text)
        })
    });
    let repeated = set_a().each(|set, file| set.insert(file, 1, header(20)));
    let no_data = headers_only().each(|set, file| set.remove(file, header_line(20)));
    let data_only = set_a().cut(R, 0).add(R, crate::receiver(101));
    cases.extend([
        check("types in falling order", reversed, as_a()),
        check("H20 twice", repeated, as_a()),
        check("no H20 and no data", no_data, refused(7, R, last_header(), 0)),
        check("no header line in R", data_only, refused(7, R, 1, 0)),
    ]);
    cases
}

/// Set A with another text in columns 33-80 of H18.
fn projection(text: &str) -> Set {
    set_a().each(|set, file| set.put(file, header_line(18), 33, &format!("{text:48}")))
}

/// 8: an H18 that says nothing.
fn projections() -> Vec<Case> {
    let mut cases = Vec::new();
    let right = format!("{:>48}", "N/A");
    let nothing = ["", ";", ";UTM", "   ;", " ; UTM", "N/A", "N/A;", " N/A ;", "N/A;UTM", &right];
    for text in nothing {
        cases.push(check(
            format!("H18 of `{text}`"),
            projection(text),
            refused(8, R, header_line(18), 33),
        ));
    }
    let last = format!("{:>48}", "U");
    let something =
        ["n/a;", "N/a", "N/A.;", "N/ A", "N/AN/A", "NA;", "N/", "UTM", "U;", "0", ".;;", &last];
    for text in something {
        cases.push(check(format!("H18 of `{text}`"), projection(text), as_a()));
    }
    let insert = |set: Set, line, text| set.each(|set, file| set.insert(file, line, text));
    let blank_18 = header(18);
    let modified = header(18).at(4, "1").at(33, "N/A");
    let in_32 = projection("").each(|set, file| set.put(file, header_line(18), 32, "U"));
    let cut_in_32 = set_a().each(|set, file| set.put(file, header_line(18), 32, ";"));
    let both = insert(projection("N/A"), first(), blank_18);
    cases.extend([
        check(
            "a second H18, blank",
            insert(set_a(), first(), blank_18),
            refused(8, R, first(), 33),
        ),
        check("a blank H18 first", insert(set_a(), 1, blank_18), refused(8, R, 1, 33)),
        check("two bad H18", both, refused(8, R, header_line(18), 33)),
        check("H181 of N/A", insert(set_a(), header_line(19), modified), as_a()),
        check("H18 with text in column 32 alone", in_32, refused(8, R, header_line(18), 33)),
        check("H18 with a semicolon in column 32", cut_in_32, as_a()),
    ]);
    cases
}

/// 9: the blocks of S and X against R's.
fn blocks() -> Vec<Case> {
    let mut cases = Vec::new();
    for file in [S, X] {
        let case = |name: &str, set: Set, line, column| {
            check(format!("{file:?}'s header {name}"), set, refused(9, file, line, column))
        };
        let (a, h18) = (set_a, header_line(18));
        let later_column = a().put(file, 5, 80, "a").put(file, 5, 10, "a");
        let later_line = a().put(file, 6, 5, "a").put(file, 5, 80, "a");
        let shorter_and_other =
            a().remove(file, last_header()).put(file, last_header() - 1, 33, "a");
        let longer_and_other =
            a().insert(file, first(), header(26)).put(file, last_header(), 33, "a");
        cases.extend([
            case("differs in column 5", a().put(file, 1, 5, "a"), 1, 5),
            case("differs in column 80", a().put(file, last_header(), 80, "a"), last_header(), 80),
            case("differs in case", a().put(file, h18, 33, "utm;"), h18, 33),
            case("differs in column 2", a().put(file, 1, 2, "99"), 1, 2),
            case("differs in column 3", a().put(file, 1, 2, "01"), 1, 3),
            case("differs in column 4", a().put(file, 3, 4, "1"), 3, 4),
            case("differs in two columns", later_column, 5, 10),
            case("differs in two lines", later_line, 5, 80),
            case("lacks H05", a().remove(file, header_line(5)), header_line(5), 3),
            case("lacks the last line", a().remove(file, last_header()), last_header(), 0),
            case("has a line more", a().insert(file, first(), header(26)), first(), 0),
            case("is shorter and differs before", shorter_and_other, last_header() - 1, 33),
            case("is longer and differs before", longer_and_other, last_header(), 33),
            case("is missing", without_header(file), 1, 0),
        ]);
    }
    let longer_r = set_a().insert(R, first(), header(26));
    let r_alone = set_a().put(R, 4, 33, "Client;");
    cases.extend([
        check("R's header has a line more", longer_r, refused(9, S, first(), 0)),
        check("R's header differs from both", r_alone, refused(9, S, 4, 33)),
        check("S's header lines in another order", swapped(), refused(9, S, 2, 3)),
    ]);
    cases
}

/// Set A whose file has its data line alone.
fn without_header(file: File) -> Set {
    (1..=last_header()).fold(set_a(), |set, _| set.remove(file, 1))
}

/// Set A with S's H01 and H02 swapped.
fn swapped() -> Set {
    set_a().remove(S, 2).insert(S, 3, header(1))
}
