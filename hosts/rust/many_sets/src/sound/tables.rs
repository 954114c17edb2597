//! Code tables: a first record for each code that is used, and lines that name nothing.

use crate::fields::text;
use crate::lines::codes;
use small_sets::{first_record, header, header_with, File, Line, Random};
use std::collections::BTreeSet;

/// The points of a file with at most three codes among them; seldom with any.
pub fn few_codes(random: &mut Random, points: Vec<Line>) -> Vec<Line> {
    let live: Vec<String> = points.iter().filter_map(code).collect();
    if live.is_empty() || random.below(8) == 0 {
        return points;
    }
    let few: [String; 3] = [(); 3].map(|()| live[random.below(live.len())].clone());
    let mut with_few = |line: Line| match code(&line) {
        Some(_) => line.code(&few[random.below(3)]),
        None => line,
    };
    points.into_iter().map(&mut with_few).collect()
}

/// The code of a point that is not killed.
fn code(line: &Line) -> Option<String> {
    let code = String::from_utf8_lossy(&line.0[26..28]).into_owned();
    Some(code).filter(|code| code != "KL")
}

/// The codes of points and of instruments that a set uses.
pub fn used(r: &[Line], s: &[Line], x: &[Line]) -> BTreeSet<String> {
    let instrument = |line: &Line| match line.0[12] {
        b' ' => "1".to_owned(),
        digit => char::from(digit).to_string(),
    };
    r.iter().chain(s).filter_map(code).chain(x.iter().map(instrument)).collect()
}

/// One first record for each of the codes and for some others, in any table of their kind, and
/// at times lines that name none.
pub fn tables(random: &mut Random, used: &BTreeSet<String>) -> Vec<Line> {
    let mut named = used.clone();
    for _ in 0..random.below(4) {
        named.insert(any(random));
    }
    let mut lines: Vec<Line> = named.iter().map(|code| names(random, code)).collect();
    for _ in 0..random.below(4) {
        lines.push(names_none(random, used));
    }
    lines
}

/// Any code of any kind.
fn any(random: &mut Random) -> String {
    let digit = char::from(random.pick(b"123456789"));
    match random.below(3) {
        0 => digit.to_string(),
        1 => format!("{}{digit}", char::from(random.pick(codes(File::R)))),
        _ => format!("{}{digit}", char::from(random.pick(codes(File::S)))),
    }
}

/// A first record of a code, at times with text beside it.
fn names(random: &mut Random, code: &str) -> Line {
    let line = first_record(random.below(90), code);
    match random.below(2) {
        0 => line,
        _ => line.at(5, &text(random, 28)).at(35, &text(random, 46)),
    }
}

/// Another line of a table with a code, or a first record with something near to one.
fn names_none(random: &mut Random, used: &BTreeSet<String>) -> Line {
    const NEAR: [(usize, &str); 16] = [
        (400, "1 "),
        (420, "1."),
        (440, "0,"),
        (460, ",1"),
        (480, "G1"),
        (600, "G0"),
        (600, "g1"),
        (610, "PM"),
        (620, "V1"),
        (630, "1,"),
        (690, "G "),
        (700, "KL"),
        (720, "S0"),
        (740, "G1"),
        (880, " V"),
        (820, "1,"),
    ];
    const OTHERS: [usize; 14] = [40, 60, 70, 401, 410, 570, 580, 601, 609, 695, 701, 710, 890, 900];
    let any = any(random);
    let code = used.iter().nth(random.below(used.len().max(1))).unwrap_or(&any);
    match random.below(2) {
        0 => {
            let (number, near) = random.pick(&NEAR);
            header(number).at(33, near)
        }
        _ => header_with(random.pick(&OTHERS), code),
    }
}
