//! Headers of many lines, the last of which name codes; below them each code is used in turn.

use super::{last, record};
use small_sets::place::header_line;
use small_sets::{codes, first_record, header, headers_only, receiver, shot, File, Line, Set};

/// The codes of a file that a table names.
fn named(file: File) -> Vec<String> {
    let text = |code: [u8; 2]| String::from_utf8_lossy(&code).into_owned();
    let all = codes(file).into_iter().map(text);
    all.filter(|code| code != "PM" && code != "KL").collect()
}

/// The header lines are half of all: the types, first records that name nothing, and one for each
/// code, the instruments 1 to 8 last.
fn block(lines: usize) -> Vec<Line> {
    let whole = headers_only();
    let types = (1..=header_line(20)).map(|line| whole.line(File::R, line));
    let instruments = (1..=8).map(|digit| digit.to_string());
    let codes = named(File::R).into_iter().chain(named(File::S)).chain(instruments);
    let records: Vec<Line> = (0..).zip(codes).map(|(at, code)| first_record(at, &code)).collect();
    let nothing = vec![header(600).at(33, "G0"); lines / 2 - header_line(20) - records.len()];
    types.chain(nothing).chain(records).collect()
}

/// All codes are named.
pub fn named_last(lines: usize) -> Set {
    let (r, s, own) = (named(File::R), named(File::S), (lines - lines / 2) as u32);
    let in_turn = |codes: &[String], n: u32| codes[n as usize % codes.len()].clone();
    let relation = |n: u32| {
        let line = record(n).channels(1, 1).receivers(n, n);
        line.instrument(&(n % 8 + 1).to_string())
    };
    let block = block(lines);
    Set::default()
        .each(|set, file| set.add_all(file, block.iter().copied()))
        .add_all(File::R, (0..own).map(|n| receiver(n).code(&in_turn(&r, n))))
        .add_all(File::S, (0..own).map(|n| shot(n).code(&in_turn(&s, n))))
        .add_all(File::X, (0..own).map(relation))
}

/// The last header line names the code of the first that names one.
pub fn named_again(lines: usize) -> Set {
    let line = first_record(0, &named(File::R)[0]);
    named_last(lines).each(|set, file| set.edit(file, lines / 2, |_| line))
}

/// The last relation line uses an instrument that is not named.
pub fn not_named(lines: usize) -> Set {
    last(named_last(lines), File::X, |line| line.instrument("9"))
}
