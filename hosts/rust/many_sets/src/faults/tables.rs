//! Code tables, the same in all files: a code named again, named no more, or used without.

use super::values::with;
use super::{headers_of, own_line};
use crate::lines::codes;
use small_sets::{first_record, header, File, Line, Random, Set};

/// The header lines of three digits, where all files have them.
fn tables(set: &Set) -> Vec<usize> {
    let lines = File::ALL.map(|file| headers_of(set, file)).into_iter().min().unwrap_or(0);
    (1..=lines).filter(|&line| set.line(File::R, line).0[3].is_ascii_digit()).collect()
}

/// One of them.
fn table(random: &mut Random, set: &Set) -> Option<usize> {
    let tables = tables(set);
    (!tables.is_empty()).then(|| random.pick(&tables))
}

/// The code that a header line has, whether it names it or not.
fn code(line: &Line) -> String {
    let text = String::from_utf8_lossy(&line.0[32..34]).into_owned();
    text.trim_end_matches(',').to_owned()
}

/// A first record more in all files, anywhere among the header lines.
fn added(random: &mut Random, set: Set, code: &str) -> Set {
    let lines = File::ALL.map(|file| headers_of(&set, file)).into_iter().min().unwrap_or(0);
    let line = match code {
        "" => header(600),
        code => first_record(random.below(90), code),
    };
    let at = 1 + random.below(lines + 1);
    set.each(|set, file| set.insert(file, at, line))
}

/// A code of a header line in another first record.
pub fn again(random: &mut Random, set: Set) -> Set {
    match table(random, &set) {
        Some(line) => {
            let code = code(&set.line(File::R, line));
            added(random, set, &code)
        }
        None => set,
    }
}

/// A code in a first record more; at times it is named already.
pub fn more(random: &mut Random, set: Set) -> Set {
    let letter = random.pick(b"GHRVEAWS ");
    let digit = random.pick(b"123");
    let code = [letter, digit].map(char::from).iter().collect::<String>();
    added(random, set, code.trim())
}

pub fn dropped(random: &mut Random, set: Set) -> Set {
    match table(random, &set) {
        Some(line) => set.each(|set, file| set.remove(file, line)),
        None => set,
    }
}

/// Another number of the line, or another code in it.
pub fn changed(random: &mut Random, set: Set) -> Set {
    const NUMBERS: [&str; 18] = [
        "60 ", "600", "601", "610", "690", "695", "70 ", "700", "701", "710", "720", "880", "40 ",
        "400", "410", "420", "560", "570",
    ];
    const CODES: [&str; 14] =
        ["G1", "G2", "H1", "R1", "V1", "E1", "S1", "1,", "2,", "PM", "KL", "  ", "G0", "1."];
    let Some(at) = table(random, &set) else { return set };
    let (column, text) = match random.below(2) {
        0 => (2, random.pick(&NUMBERS)),
        _ => (33, random.pick(&CODES)),
    };
    set.each(|set, file| set.put(file, at, column, text))
}

/// Two header lines of three digits with each other's columns from 33 on.
pub fn exchanged(random: &mut Random, set: Set) -> Set {
    let (Some(one), Some(other)) = (table(random, &set), table(random, &set)) else { return set };
    let texts = [one, other].map(|line| set.line(File::R, line).0[32..].to_vec());
    set.each(|set, file| {
        set.edit(file, one, |line| with(line, (33, 80), &texts[1]))
            .edit(file, other, |line| with(line, (33, 80), &texts[0]))
    })
}

/// Any code in a line of R or S, or any instrument in one of X.
pub fn used(random: &mut Random, set: Set) -> Set {
    let file = super::file(random);
    let Some(at) = own_line(random, &set, file) else { return set };
    let digit = random.pick(b"123456789");
    let letter = random.pick(codes(file));
    set.edit(file, at, |line| match file {
        File::X => with(line, (13, 13), &[digit]),
        File::R | File::S => with(line, (27, 28), &[letter, digit]),
    })
}
