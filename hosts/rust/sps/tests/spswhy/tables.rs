//! Code tables: which codes the header names, and which line names a code before.

use crate::{of, tape};
use small_sets::place::{below, first, header_line};
use small_sets::{header_with, set_a, File, Set};

/// Set A with lines put in below its header in all files.
fn with(lines: &[small_sets::Line]) -> Set {
    set_a().each(|set, file| {
        lines.iter().rev().fold(set, |set, &line| set.insert(file, first(), line))
    })
}

/// Set A with other tables, and lines that name nothing.
fn tables() -> Set {
    with(&[
        header_with(690, "H2"),
        header_with(601, "G3"),
        header_with(880, "S9"),
        header_with(600, "V2"),
        header_with(700, "PM"),
        header_with(560, "7"),
        header_with(420, "G1"),
    ])
}

const NOT_NAMED: &str = "no code table in the header of R names this code";

/// Holds what is said of a set, on disc and on tape.
fn hold(name: &str, set: &Set, verdict: &str, reason: &str) {
    for (name, set) in [(name.to_owned(), set.clone()), (format!("{name}_tape"), tape(set))] {
        let expected = (Some(1), format!("{verdict}\n"), reason.to_owned());
        assert_eq!(of(&name, &set), expected, "{name}");
    }
}

/// Seven lines stand between set A's header and its own lines.
#[test]
fn a_receiver() {
    let line = below(2) + 7;
    let reason = format!(
        "set.r01:{line}:27: refused with 25: {NOT_NAMED}\n\
         receiver codes are named in columns 33 and 34 of H600, H610, .. H690\n\
         found G2; the header names these receiver codes:\nG1  line {}, H600\nH2  line {}, H690\n\
         RL1                   1021G2     0.0   0            0.0       0.0   0.0113071245\n\
         {:>27}\n",
        header_line(600),
        first(),
        '^'
    );
    let set = tables().put(File::R, line, 27, "G2");
    hold("unnamed_receiver", &set, &format!("REFUSED 25 R {line} 27"), &reason);
}

#[test]
fn a_source() {
    let line = first() + 7;
    let reason = format!(
        "set.s01:{line}:27: refused with 25: {NOT_NAMED}\n\
         source codes are named in columns 33 and 34 of H700, H720, .. H880\n\
         found V2; the header names these source codes:\nV1  line {}, H700\nS9  line {}, H880\n\
         SL1                   5011V2     0.0   0            0.0       0.0   0.0113071245\n\
         {:>27}\n",
        header_line(700),
        first() + 2,
        '^'
    );
    let set = tables().put(File::S, line, 27, "V2");
    hold("unnamed_source", &set, &format!("REFUSED 25 S {line} 27"), &reason);
}

#[test]
fn an_instrument() {
    let line = first() + 7;
    let reason = format!(
        "set.x01:{line}:13: refused with 25: {NOT_NAMED}\n\
         instruments are named by a digit in column 33 and a comma in column 34 of H400, H420, .. \
         H560\n\
         found 2; the header names these instruments:\n1  line {}, H400\n7  line {}, H560\n\
         X100     1112L1                   5011   1   31L1                   101     1031\n\
         {:>13}\n",
        header_line(400),
        first() + 5,
        '^'
    );
    let set = tables().put(File::X, line, 13, "2");
    hold("unnamed_instrument", &set, &format!("REFUSED 25 X {line} 13"), &reason);
}

/// No table is left of a kind; a line less stands above.
#[test]
fn none_named() {
    for (number, file, column, what) in [
        (600, 'R', 27, "receiver codes"),
        (700, 'S', 27, "source codes"),
        (400, 'X', 13, "instruments"),
    ] {
        let set = set_a().each(|set, file| set.remove(file, header_line(number)));
        let (_, verdict, reason) = of("none_named", &set);
        assert_eq!(verdict, format!("REFUSED 25 {file} {} {column}\n", first() - 1));
        assert!(reason.contains(&format!("; the header names no {what}\n")), "{reason}");
    }
}

#[test]
fn named_before() {
    for (number, code, own) in [(690, "G1", 600), (700, "V1", 700), (420, "1", 400)] {
        let line = header_with(number, code).at(5, "again");
        let set = with(&[line]);
        let before = header_line(own);
        let [text, other] = [line, set.line(File::R, before)]
            .map(|line| String::from_utf8_lossy(&line.0).into_owned());
        let reason = format!(
            "set.r01:{}:33: refused with 24: a code table names a code that an earlier one names\n\
             line {before}, H{own}, names {code} before it\n{text}\n{:>33}\n\
             set.r01:{before}:33: the line that names it first\n{other}\n{:>33}\n",
            first(),
            '^',
            '^'
        );
        let verdict = format!("REFUSED 24 R {} 33", first());
        hold(&format!("named_before_{number}"), &set, &verdict, &reason);
    }
}

/// Of three the first is told, and lines that name nothing are passed over.
#[test]
fn the_first_of_some() {
    let lines = [(601, "G2"), (610, "G2"), (700, "G2"), (620, "G2"), (630, "G2")];
    let (_, verdict, reason) =
        of("first_of_some", &with(&lines.map(|(number, code)| header_with(number, code))));
    assert_eq!(verdict, format!("REFUSED 24 R {} 33\n", first() + 3));
    let told = format!("\nline {}, H610, names G2 before it\n", first() + 1);
    assert!(reason.contains(&told), "{reason}");
}
